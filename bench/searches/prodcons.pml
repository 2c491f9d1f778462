/* prodcons: producers 0 FAST and 1 SLOW on processor 0, FAST first; 2 EATER and 3 LOG on 1, EATER first; PIPE of 3
   words, BACK of 2. */
chan pipe = [3] of { byte }; chan back = [2] of { byte };
chan sp = [2] of { byte, byte };    /* senders that wait at PIPE, with their words */
bit waits[4]; byte left[2]; bit rp, rb, sb; byte sbw; byte got[2]; /* the words that EATER and LOG got */
#define READY(t) (!waits[t])
#define RUNS (READY(me) && (me != 1 || !READY(0)) && (me != 3 || !READY(2)))
#define SEND(word) if :: rp -> rp = 0; waits[2] = 0; got[0] = word \
  :: else -> if :: nfull(pipe) -> pipe!word :: full(pipe) -> sp!me,word; waits[me] = 1 fi fi
proctype produce(byte me; byte exinf) {
  byte item;
s0: atomic { RUNS -> SEND(exinf*10+item) }; goto s1;
l0: atomic { RUNS -> SEND(exinf*10+item) };
s1: atomic { RUNS -> item++;
      if :: (item == 3) -> item = 0; waits[me] = 1; left[me] = 2; goto l0 :: else -> SEND(exinf*10+item); goto s1 fi }
}
#define RCV if :: nempty(pipe) -> pipe?w; got[0] = w; \
              if :: nempty(sp) -> sp?u,w; pipe!w; waits[u] = 0; u = 0 :: empty(sp) fi; w = 0 \
            :: empty(pipe) -> rp = 1; waits[2] = 1 fi
proctype eater(byte me) {
  byte n, w, u;
s0: atomic { RUNS -> RCV }; goto s1;
s1: atomic { RUNS -> n++;
      if :: (n == 3) -> n = 0;
            if :: rb -> rb = 0; waits[3] = 0; got[1] = got[0]
               :: else -> if :: nfull(back) -> back!got[0] :: full(back) -> sb = 1; sbw = got[0]; waits[2] = 1 fi fi;
            got[0] = 0; goto s2
         :: else -> got[0] = 0; RCV; goto s1 fi };
s2: atomic { RUNS -> RCV; goto s1 }
}
#define RCB if :: nempty(back) -> back?w; got[1] = w; w = 0; \
              if :: sb -> sb = 0; back!sbw; sbw = 0; waits[2] = 0 :: else fi \
            :: empty(back) -> rb = 1; waits[3] = 1 fi
proctype log(byte me) {
  byte w;
s0: atomic { RUNS -> RCB }; goto s1;
l0: atomic { RUNS -> RCB };
s1: atomic { RUNS -> got[1] = 0; goto l0 }
}
#define DUE(t) if :: (left[t] == 0) :: (left[t] == 1) -> left[t] = 0; waits[t] = 0 :: else -> left[t]-- fi
proctype clock() {
end: do :: atomic { (left[0] || left[1]) -> DUE(0); DUE(1) } od
}
init { atomic { run produce(0, 1); run produce(1, 2); run eater(2); run log(3); run clock() } }
