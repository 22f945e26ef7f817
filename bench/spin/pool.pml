// N borrowers, at most 8, of one pool, and a user who gives something back once. Each step is one of the plan.
#ifndef N
#define N 2
#endif

bool held;     // the mutex `pool`
bool free;     // the flag
byte asleep;   // a bit for each borrower that sleeps on the condition variable `returned`

#define LOCK d_step { !held -> held = true }
#define WAIT d_step { held = false; asleep = asleep | (1 << _pid) }
#define RELOCK d_step { !(asleep & (1 << _pid)) && !held -> held = true }
#define WAKES(k) d_step { asleep & (1 << k) -> asleep = asleep & ~(1 << k) }

inline notify_one() {
    if
    :: WAKES(0) :: WAKES(1) :: WAKES(2) :: WAKES(3) :: WAKES(4) :: WAKES(5) :: WAKES(6) :: WAKES(7)
    :: !asleep
    fi
}

active [N] proctype borrower() {
    LOCK;
    do
    :: free -> break
    :: !free -> WAIT; RELOCK
    od;
    free = false;
    held = false;
    LOCK;
    free = true;
    notify_one();
    held = false;
end:
    false
}

active proctype user() {
    LOCK;
    free = true;
    notify_one();
    held = false;
end:
    false
}
