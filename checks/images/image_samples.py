"""Two images and the texts of their systems: the smallest with one task, and one with a row in each table.

The first is given by its bytes, the second by its tables and its code, both worked out by hand from the rules.
"""

from images.image_format import spell

ONE_TASK_CONFIGURATION = "NUM_PRC(1); CLASS(TCL_1) { CRE_TSK(T1,{TA_ACT,0,main,10,256,NULL}); }"
ONE_TASK_SOURCE = "task main { put(7); }"
ONE_TASK = bytes.fromhex(
    "464d50490300010100010103000107000000000801ffff0001090000000000"
    "010254310200000000000a000100000100000000000000000000"
)

# The same in the versions before, which also load.
OLDER = {version: ONE_TASK[:4] + bytes([version]) + ONE_TASK[5:] for version in (1, 2)}

# Most fields stand at a limit. Some names are one letter from another or from a word.
FILLED_CONFIGURATION = """NUM_PRC(8);
CLASS(TCL_8_ONLY) {
    CRE_TSK(T, { TA_ACT, -1, t, 16, 65536, NULL });
    CRE_CYC(C, { TA_STA, -1, h, 0x40000000, 0x40000000 });
    DEF_INH(32, { 0, h });
}
CLASS(TCL_1) {
    CRE_TSK(U, { 0, 2147483647, t, 1, 16, NULL });
    CRE_SEM(pup, { TA_TPRI, 65535, 65535 });
    CRE_FLG(F, { TA_TPRI | TA_WMUL | TA_CLR, 65535 });
    CRE_DTQ(D, { TA_TPRI, 255, NULL });
    CRE_MBX(X, { TA_TPRI | TA_MPRI, 16, NULL });
    CRE_MSG(G, { 16 });
    CRE_SHR(W, { -2147483647 });
    CRE_SPN(a234567890123456789012345678901, { 0 });
    DEF_INH(1, { 0, h });
}
"""
FILLED_SOURCE = """task t {
    var v; var r; var a[2];
    while (v < 3) { if (!v || r) { v = v - exinf * 2; } else { break; } }
    r = put(v);
    a[r] = a[1];
    twai_flg(F, 1, TWF_ORW, &v, TMO_POL);
}
handler h { iset_flg(F, 65535); }
"""

# Opcode, argument and operands before it: 1 PUSH, 2 LOAD, 3 STORE, 4 UN, 5 BIN, 6 JMP, 7 JZ, 8 CALL, 9 END, 10 LDX,
# 11 STX. Locals: 0 exinf, 1 v, 2 r, 3 and 4 a.
TASK_CODE = [
    (2, 1, 0), (1, 3, 1), (5, 10, 2), (7, 21, 1),  # while (v < 3)
    (2, 1, 0), (4, 1, 1), (7, 9, 1), (1, 1, 0), (6, 11, 1), (2, 2, 0), (4, 3, 1), (7, 19, 1),  # if (!v || r)
    (2, 1, 0), (2, 0, 1), (1, 2, 2), (5, 2, 3), (5, 1, 2), (3, 1, 1), (6, 20, 0),  # v = v - exinf * 2
    (6, 21, 0),  # else break
    (6, 0, 0),  # the loop again
    (2, 1, 0), (8, 1 + 256 * 255 + 65536 * 2, 1),  # r = put(v)
    (2, 2, 0), (1, 1, 1), (10, 3 + 256 * 2, 2), (11, 3 + 256 * 2, 2),  # a[r] = a[1]
    (1, 1, 0), (1, 1, 1), (1, 1, 2), (1, 0, 3), (8, 28 + 256 * 1 + 65536 * 255, 4),  # twai_flg
    (9, 0, 0),
]
HANDLER_CODE = [(1, 1, 0), (1, 65535, 1), (8, 55 + 256 * 255 + 65536 * 255, 2), (9, 0, 0)]

FILLED = spell({
    "version": 3,
    "processors": 8,
    "bodies": [
        {"kind": 0, "locals": 5, "depth": 4, "code": TASK_CODE},
        {"kind": 1, "locals": 1, "depth": 2, "code": HANDLER_CODE},
    ],
    "tasks": [
        {"name": b"T", "attribute": 2, "exinf": -1, "body": 0, "priority": 16, "stack": 65536, "processor": 8,
         "only": 1},
        {"name": b"U", "attribute": 0, "exinf": 2147483647, "body": 0, "priority": 1, "stack": 16, "processor": 1,
         "only": 0},
    ],
    "semaphores": [{"name": b"pup", "attribute": 1, "count": 65535, "greatest": 65535}],
    "flags": [{"name": b"F", "attribute": 7, "pattern": 65535}],
    "data_queues": [{"name": b"D", "attribute": 1, "capacity": 255}],
    "mailboxes": [{"name": b"X", "attribute": 3, "least_urgent": 16}],
    "messages": [{"name": b"G", "priority": 16}],
    "shared_words": [{"name": b"W", "word": -2147483647}],
    "spin_locks": [{"name": b"a234567890123456789012345678901"}],
    "cyclic_handlers": [{"name": b"C", "attribute": 2, "exinf": -1, "body": 1, "period": 1 << 30, "phase": 1 << 30,
                         "processor": 8}],
    "interrupts": [{"number": 32, "body": 1, "processor": 8}, {"number": 1, "body": 1, "processor": 1}],
})
