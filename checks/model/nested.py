"""Random systems of which all lists of events end, but for what changes nothing: ticks on which nobody waits, and the
calls of a task that puts one number for ever. Their bodies nest what those of systems.py do not: conditions, loops,
jumps, expressions and elements of an array.
"""

import random

VALUES = "exinf", "i", "x", "y"
GROUPS = "cpu", "delays", "flags", "locks", "mailboxes", "queues", "semaphores", "sleeps", "tasks", "words"
LIMITS = "0", "1", "2", "TMO_FEVR"
INTERRUPT = 3
OBJECTS = "S", "Q", "B"  # those that count what they hold
PUTS_FOR_EVER = "PUTS"  # the task that does

# Calls by group. What stands in braces is chosen: T a task or the caller, O a task, P a priority, N a processor, M a
# time limit, V a number, E an expression. A task starts only tasks of greater numbers, A, so that all runs end.
CALLS = {
    "cpu": ("loc_cpu()", "unl_cpu()", "dis_dsp()", "ena_dsp()", "rot_rdq(0)"),
    "delays": ("dly_tsk(0)", "dly_tsk(1)", "dly_tsk(2)"),
    "flags": ("set_flg(F, 1)", "set_flg(F, 3)", "clr_flg(F, {V})", "wai_flg(F, 1, TWF_ORW, &x)", "pol_flg(F, 2, 0, &x)",
              "wai_flg(F, 3, TWF_ANDW, &y)", "twai_flg(F, 1, TWF_ORW, &x, {M})"),
    "locks": ("loc_spn(L1)", "unl_spn(L1)", "try_spn(L1)", "loc_spn(L2)", "unl_spn(L2)"),
    "mailboxes": ("snd_mbx(B, G1)", "snd_mbx(B, G2)", "rcv_mbx(B, &x)", "trcv_mbx(B, &y, {M})"),
    "queues": ("snd_dtq(Q, {V})", "rcv_dtq(Q, &x)", "tsnd_dtq(Q, {E}, {M})", "trcv_dtq(Q, &y, {M})", "fsnd_dtq(Q, {V})",
               "prcv_dtq(Q, &x)"),
    "semaphores": ("wai_sem(S)", "sig_sem(S)", "sig_sem(S)", "pol_sem(S)", "twai_sem(S, {M})"),
    "sleeps": ("slp_tsk()", "tslp_tsk({M})", "wup_tsk({O})", "wup_tsk({O})", "can_wup({T})"),
    "tasks": ("act_tsk({A})", "act_tsk({A})", "mact_tsk({A}, {N})", "ter_tsk({O})", "sus_tsk({T})", "rsm_tsk({O})",
              "chg_pri({T}, {P})", "rel_wai({O})", "can_act({T})", "get_pri({T}, &x)", "mig_tsk({T}, {N})"),
    "words": ("ld_shr(W, &x)", "ld_shr(W, &y)", "st_shr(W, {E})"),
    "puts": ("put({E})",),
}
OF_HANDLERS = {
    "flags": ("iset_flg(F, 1)", "iset_flg(F, 2)"), "queues": ("ipsnd_dtq(Q, {V})", "ifsnd_dtq(Q, {V})"),
    "semaphores": ("isig_sem(S)",), "sleeps": ("iwup_tsk({O})",), "tasks": ("iact_tsk({O})", "irel_wai({O})"),
    "words": CALLS["words"], "puts": CALLS["puts"],
}
OPERATORS = "+ - * / % == != < <= && && && || || || & |".split()


class Nested:
    """The texts of a seed, and what has to be known of them."""

    def __init__(self, seed):
        self.random = random.Random(f"nested {seed}")
        self.processor_count = self.random.choice((1, 1, 2, 2))
        self.task_count = self.random.randint(2, 3)
        self.has_interrupt = self.random.random() < 0.3
        self.puts_for_ever = self.random.random() < 0.5
        self.groups = ["puts", *self.random.sample(GROUPS, self.random.randint(2, 4))]
        self.caller = 0  # the task whose body is written; 0 of a handler

    @property
    def names(self):
        return [f"T{number}" for number in range(1, self.task_count + 1)]

    def any(self, *choices):
        return self.random.choice(choices)

    # Expressions

    def element(self):
        return f"a[{self.any('0', '1', 'x % 3', 'y')}]"

    def operand(self):
        kind = self.random.random()
        return self.element() if kind < 0.1 else self.any(*VALUES) if kind < 0.5 else str(self.any(0, 1, 1, 2, 3))

    def expression(self, depth=2):
        kind = self.random.random()
        if depth == 0 or kind < 0.4:
            return self.operand()
        if kind < 0.5:
            return f"{self.any(*'-!~')}({self.expression(depth - 1)})"
        return f"({self.expression(depth - 1)} {self.any(*OPERATORS)} {self.expression(depth - 1)})"

    # Statements

    def call(self):
        table = CALLS if self.caller else OF_HANDLERS
        form = self.any(*table[self.any(*(group for group in self.groups if group in table))])
        greater = [f"T{number}" for number in range(self.caller + 1, self.task_count + 1)]
        if "{A}" in form and not greater:
            form = "put({E})"
        words = {
            "A": self.any(*greater or ("",)), "E": self.expression(1), "M": self.any(*LIMITS),
            "N": self.random.randint(1, self.processor_count), "O": self.any(*self.names), "P": self.any(0, 3, 5, 7),
            "T": self.any("TSK_SELF", *self.names), "V": self.any(0, 1, 2),
        }
        return f"{self.any('', '', 'y = ')}{form.format(**words)};"

    def block(self, depth, in_loop):
        return "{ " + " ".join(self.statement(depth, in_loop) for _ in range(self.random.randint(1, 2))) + " }"

    def choice(self, depth, in_loop):
        text = f"if ({self.expression()}) {self.block(depth, in_loop)}"
        return text + f" else {self.block(depth, in_loop)}" if self.random.random() < 0.5 else text

    def loop(self, depth):
        """A loop that ends: it counts its turns first, whichever way its body goes on."""
        condition = self.any("i < 2", "i < 3 && x < 3", "i < 2 || 0")
        return f"i = 0; while ({condition}) {{ i = i + 1; {self.block(depth, True)[2:]}"

    def statement(self, depth=2, in_loop=False):
        kind = self.random.random()
        if depth > 0 and kind < 0.25:
            return self.choice(depth - 1, in_loop)
        if depth > 0 and kind < 0.35 and not in_loop:
            return self.loop(depth - 1)
        if kind < 0.45:
            return f"{self.any('x', 'y')} = {self.expression()};"
        if kind < 0.5:
            return f"{self.element()} = {self.expression(1)};"
        if kind < 0.55:
            return f"if ({self.expression(1)}) {{ {self.any('break;', 'continue;') if in_loop else 'return;'} }}"
        return self.call()

    # Texts

    def body(self, kind, name, caller):
        self.caller = caller
        lines = ["var x; var y; var i; var a[3];", *(self.statement() for _ in range(self.random.randint(1, 4)))]
        return "".join((f"{kind} {name} {{\n", *(f"    {line}\n" for line in lines), "}\n"))

    def task(self, number):
        processor, only = self.random.randint(1, self.processor_count), self.any("", "", "", "", "_ONLY")
        attribute = "TA_ACT" if number == 1 else self.any("0", "TA_ACT")
        packet = f"{attribute}, {self.any(0, 1, 2)}, t{number}, {self.any(4, 5, 5, 6)}, 512, NULL"
        return f"CLASS(TCL_{processor}{only}) {{ CRE_TSK(T{number}, {{ {packet} }}); }}\n"

    def objects(self):
        return "".join((
            "CLASS(TCL_1) {\n",
            f"    CRE_SEM(S, {{ {self.any(0, 1)}, {self.any(0, 1)}, {self.any(1, 2)} }});\n",
            f"    CRE_FLG(F, {{ {self.any(0, 2, 4, 6)}, {self.any(0, 1)} }});\n",
            f"    CRE_DTQ(Q, {{ 0, {self.any(0, 1)}, NULL }});\n",
            "    CRE_MBX(B, { 0, 3, NULL }); CRE_MSG(G1, { 1 }); CRE_MSG(G2, { 2 });\n",
            f"    CRE_SHR(W, {{ {self.any(0, 1, 2)} }}); CRE_SPN(L1, {{ 0 }}); CRE_SPN(L2, {{ 0 }});\n", "}\n"))

    def texts(self):
        """The configuration and the bodies."""
        numbers = range(1, self.task_count + 1)
        configuration = f"NUM_PRC({self.processor_count});\n" + "".join(map(self.task, numbers)) + self.objects()
        source = "".join(self.body("task", f"t{number}", number) for number in numbers)
        last = self.random.randint(1, self.processor_count)
        if self.puts_for_ever:
            packet = "TA_ACT, 0, puts, 16, 256, NULL"
            configuration += f"CLASS(TCL_{last}_ONLY) {{ CRE_TSK({PUTS_FOR_EVER}, {{ {packet} }}); }}\n"
            source += "task puts { while (1) { put(9); } }\n"
        if self.has_interrupt:
            configuration += f"CLASS(TCL_{last}) {{ DEF_INH({INTERRUPT}, {{ 0, h }}); }}\n"
            source += self.body("handler", "h", 0)
        return configuration, source
