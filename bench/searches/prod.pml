/* prod5 (-DN=5): N producers of different urgency on processor 0, one consumer on 1, PIPE of 2 words. */
#ifndef N
#define N 5
#endif
chan pipe = [2] of { byte };
chan sp = [N] of { byte, byte };
bit waits[N]; byte left[N]; bit rp; byte got;
proctype produce(byte me; byte exinf) {
  byte k;
#define UP(m) (me <= m || waits[m])
#if N == 1
#define UPS true
#elif N == 2
#define UPS UP(0)
#elif N == 3
#define UPS UP(0) && UP(1)
#elif N == 4
#define UPS UP(0) && UP(1) && UP(2)
#else
#define UPS UP(0) && UP(1) && UP(2) && UP(3)
#endif
#define RUNS (!waits[me] && UPS)
#define SEND(word) if :: rp -> rp = 0; got = word \
  :: else -> if :: nfull(pipe) -> pipe!word :: full(pipe) -> sp!me,word; waits[me] = 1 fi fi
s0: atomic { RUNS -> SEND(exinf) }; goto s1;
l0: atomic { RUNS -> SEND(exinf) };
s1: atomic { RUNS -> waits[me] = 1; left[me] = 2; goto l0 }
}
proctype eater() {
  byte w, u;
#define RCV if :: nempty(pipe) -> pipe?w; got = w; \
    if :: nempty(sp) -> sp?u,w; pipe!w; waits[u] = 0; u = 0 :: empty(sp) fi; w = 0 \
  :: empty(pipe) -> rp = 1 fi
s0: atomic { RCV }; goto s1;
l0: atomic { RCV };
s1: atomic { !rp -> got = 0; goto l0 }
}
#if N == 1
#define RUNNING (left[0])
#elif N == 2
#define RUNNING (left[0] || left[1])
#elif N == 3
#define RUNNING (left[0] || left[1] || left[2])
#elif N == 4
#define RUNNING (left[0] || left[1] || left[2] || left[3])
#else
#define RUNNING (left[0] || left[1] || left[2] || left[3] || left[4])
#endif
proctype clock() {
  byte t;
end: do :: atomic { RUNNING -> t = 0;
    do :: (t < N) ->
        if :: (left[t] == 0) :: (left[t] == 1) -> left[t] = 0; waits[t] = 0 :: else -> left[t]-- fi; t++
       :: else -> break od; t = 0 } od
}
init { byte i; atomic {
  do :: (i < N) -> run produce(i, i + 1); i++ :: else -> i = 0; break od;
  run eater(); run clock() } }
