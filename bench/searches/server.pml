/* server: 0 SERVER and 1 C1 on processor 0, SERVER first; 2 C2 and 3 C3 on 1, C2 first. M3 goes before M2 before M1. */
bit msg[4]; byte flags; bit waits[4]; byte left[4]; byte want[4]; byte handed; bit desk;
#define READY(t) (!waits[t])
#define RUNS (READY(me) && (me != 1 || !READY(0)) && (me != 3 || !READY(2)))
#define DLY(k) waits[me] = 1; left[me] = k + 1
#define TAKE if :: msg[3] -> msg[3] = 0; handed = 3 :: else -> if :: msg[2] -> msg[2] = 0; handed = 2 \
  :: else -> if :: msg[1] -> msg[1] = 0; handed = 1 :: else -> waits[0] = 1; desk = 1 fi fi fi
#define FREE(t) if :: (want[t] & flags) -> want[t] = 0; waits[t] = 0 :: else fi
#define SND if :: desk -> desk = 0; waits[0] = 0; handed = me :: else -> msg[me] = 1 fi
proctype server(byte me) {
s0: atomic { RUNS -> TAKE }; goto s1;
l0: atomic { RUNS -> TAKE };
s1: atomic { RUNS ->
      if :: (handed == 1) -> flags = flags | 1 :: (handed == 2) -> flags = flags | 2 :: else -> flags = flags | 4 fi;
      handed = 0; FREE(1); FREE(2); FREE(3); goto l0 }
}
proctype client(byte me; byte b) {
s0: atomic { RUNS -> SND }; goto s1;
l0: atomic { RUNS -> SND };
s1: atomic { RUNS -> if :: (flags & b) :: else -> want[me] = b; waits[me] = 1 fi };
s2: atomic { RUNS -> flags = flags & ~b };
s3: atomic { RUNS -> DLY(me); goto l0 }
}
#define DUE(t) if :: (left[t] == 0) :: (left[t] == 1) -> left[t] = 0; waits[t] = 0 :: else -> left[t]-- fi
proctype clock() {
end: do :: atomic { (left[1] || left[2] || left[3]) -> DUE(1); DUE(2); DUE(3) } od
}
init { atomic { run server(0); run client(1, 1); run client(2, 2); run client(3, 4); run clock() } }
