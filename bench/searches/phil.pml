/* phil7 (-DN=7): odd ones on processor 0, even ones on 1, of one priority, and the ready queues in order. */
#ifndef N
#define N 5
#endif
chan rq[2] = [(N+1)/2] of { byte };
chan wq[N] = [2] of { byte };
bit cnt[N];
#define P(t) ((t) % 2)
#define RUNS rq[p]?[eval(me)]
#define WAI(s) if :: cnt[s] -> cnt[s] = 0 :: else -> rq[p]?eval(me); wq[s]!me fi
#define SIG(s) if :: nempty(wq[s]) -> wq[s]?u; rq[P(u)]!u; u = 0 :: empty(wq[s]) -> cnt[s] = 1 fi
#define ROT rq[p]?eval(me); rq[p]!me
proctype eat(byte me; byte p; byte l; byte r) {
  byte u;
s0: atomic { RUNS -> WAI(l); goto s1 };
l0: atomic { RUNS -> WAI(l); goto s1 };
s1: atomic { RUNS -> ROT; goto s2 };
s2: atomic { RUNS -> WAI(r); goto s3 };
s3: atomic { RUNS -> SIG(r); goto s4 };
s4: atomic { RUNS -> SIG(l); goto s5 };
s5: atomic { RUNS -> ROT; goto l0 }
}
init { byte i; atomic {
  i = 0; do :: (i < N) -> cnt[i] = 1; rq[P(i)]!i; i++ :: else -> break od;
  i = 0; do :: (i < N) -> run eat(i, P(i), i, (i + 1) % N); i++ :: else -> i = 0; break od
} }
