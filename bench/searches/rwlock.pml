/* rwlock: task 0 READ1 and 1 WRITE on processor 0, WRITE first; 2 READ2 and 3 READ3 on 1, READ2 first. */
chan wq[2] = [4] of { byte };   /* 0 COUNT, 1 ROOM */
bit cnt[2] = 1;
bit waits[4]; byte left[4];
byte readers; bit data;
#define READY(t) (!waits[t])
#define WAI(s) if :: cnt[s] -> cnt[s] = 0 :: else -> waits[me] = 1; wq[s]!me fi
#define SIG(s) if :: nempty(wq[s]) -> wq[s]?u; waits[u] = 0; u = 0 :: empty(wq[s]) -> cnt[s] = 1 fi
#define DLY(k) waits[me] = 1; left[me] = k + 1
#define RUNS (READY(me) && (me != 0 || !READY(1)) && (me != 3 || !READY(2)))
proctype reader(byte me) {
  byte n, u;
s0: atomic { RUNS -> WAI(0); goto s1 };
l0: atomic { RUNS -> WAI(0); goto s1 };
s1: atomic { RUNS -> n = readers; goto s2 };
s2: atomic { RUNS -> readers = n + 1; goto s3 };
s3: atomic { RUNS -> if :: (n == 0) -> WAI(1); goto s4 :: else -> n = 0; SIG(0); goto s5 fi };
s4: atomic { RUNS -> n = 0; SIG(0); goto s5 };
s5: atomic { RUNS -> n = data; n = 0; goto s6 };
s6: atomic { RUNS -> WAI(0); goto s7 };
s7: atomic { RUNS -> n = readers; goto s8 };
s8: atomic { RUNS -> readers = n - 1; goto s9 };
s9: atomic { RUNS -> if :: (n == 1) -> SIG(1); goto sa :: else -> n = 0; SIG(0); goto sb fi };
sa: atomic { RUNS -> n = 0; SIG(0); goto sb };
sb: atomic { RUNS -> DLY(1); goto l0 }
}
proctype writer(byte me) {
  byte u;
s0: atomic { RUNS -> WAI(1); goto s1 };
l0: atomic { RUNS -> WAI(1); goto s1 };
s1: atomic { RUNS -> data = 1; goto s2 };
s2: atomic { RUNS -> data = 0; goto s3 };
s3: atomic { RUNS -> SIG(1); goto s4 };
s4: atomic { RUNS -> DLY(2); goto l0 }
}
#define DUE(t) if :: (left[t] == 0) :: (left[t] == 1) -> left[t] = 0; waits[t] = 0 :: else -> left[t]-- fi
proctype clock() {
end: do :: atomic { (left[0] || left[1] || left[2] || left[3]) -> DUE(0); DUE(1); DUE(2); DUE(3) } od
}
init { atomic { run reader(0); run writer(1); run reader(2); run reader(3); run clock() } }
