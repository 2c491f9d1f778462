/* race: two tasks add 4 each without a lock; a judge of lower urgency on the first processor. A
   transition is a call. */
byte sum; byte ready; bit judge_waits, a_end;
#define SIG if :: judge_waits -> judge_waits = 0 :: else -> ready++ fi
#define WAI if :: (ready > 0) -> ready-- :: else -> judge_waits = 1 fi
proctype add(bit first) { byte i, x;
a0: atomic { x = sum }; goto a1;
a1: atomic { sum = x + 1; x = 0 };
a2: atomic { i++; if :: (i < 4) -> x = sum; goto a1 :: else -> i = 0; SIG; goto a3 fi };
a3: atomic { if :: first -> a_end = 1 :: else fi };
end: false
}
#define RUNS (a_end && !judge_waits)
proctype judge() { byte x;
j0: atomic { RUNS -> WAI };
j1: atomic { RUNS -> WAI };
j2: atomic { RUNS -> x = sum };
j3: atomic { RUNS -> if :: (x != 8) -> assert(false) :: else fi; x = 0 };
end: false
}
init { atomic { run add(1); run add(0); run judge() } }
