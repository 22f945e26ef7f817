// N workers, at most 8, of one queue, and a party that puts jobs into it and ends. Each step is one of the plan.
#ifndef N
#define N 2
#endif

bool held;     // the mutex `queue`
bool job;
bool stopped;
byte asleep;   // a bit for each worker that sleeps on the condition variable `changed`

#define LOCK d_step { !held -> held = true }
#define WAIT d_step { held = false; asleep = asleep | (1 << _pid) }
#define RELOCK d_step { !(asleep & (1 << _pid)) && !held -> held = true }
#define WAKES(k) d_step { asleep & (1 << k) -> asleep = asleep & ~(1 << k) }

inline notify_one() {
    if
    :: WAKES(0) :: WAKES(1) :: WAKES(2) :: WAKES(3) :: WAKES(4) :: WAKES(5) :: WAKES(6) :: WAKES(7)
    :: !asleep
    fi
}

active [N] proctype worker() {
    LOCK;
    do
    :: true ->
        if
        :: job -> job = false
        :: !job ->
            if
            :: stopped
            :: !stopped -> WAIT; RELOCK
            fi
        fi
    :: true -> break
    od;
    held = false;
end:
    false
}

active proctype owner() {
    do
    :: true ->
        LOCK;
        job = true;
        notify_one();
        held = false
    :: true ->
        LOCK;
        stopped = true;
        asleep = 0;   // notify_all
        held = false;
        break
    od;
end:
    false
}
