/* peterson: a transition is one access of a shared word, with the local work before it. */
bit want0, want1, turn, inside;
#define BODY(MINE, OTHERS, GIVEN, YIELD) \
  bit other, t, n; \
s0: atomic { MINE = 1 }; goto s1; \
l0: atomic { MINE = 1 }; \
s1: atomic { turn = YIELD }; \
s2: atomic { other = OTHERS }; \
s3: atomic { t = turn }; goto s4; \
s4: atomic { if :: (other && t == YIELD) -> other = OTHERS; goto s5 \
                :: else -> other = 0; t = 0; n = inside; goto s6 fi }; \
s5: atomic { t = turn; goto s4b }; \
s4b: atomic { if :: (other && t == YIELD) -> other = OTHERS; goto s5 \
                 :: else -> other = 0; t = 0; n = inside; goto s6 fi }; \
s6: atomic { assert(!n); n = 0; inside = 1 }; \
s7: atomic { inside = 0 }; \
s8: atomic { MINE = 0; goto l0 }
active proctype A() { BODY(want0, want1, 1, 1) }
active proctype B() { BODY(want1, want0, 0, 0) }
