/* count4 (-DN=4): N tasks on N processors add 2 each to a word, without a lock. A transition is a service call. */
#ifndef N
#define N 4
#endif
byte sum;
active [N] proctype add() { byte i, x;
a0: atomic { x = sum }; goto a1;
a1: atomic { sum = x + 1; x = 0 };
a2: atomic { i++; if :: (i < 2) -> x = sum; goto a1 :: else -> i = 0; goto over fi };
over: 
end: false
}
