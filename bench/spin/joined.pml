// A party that starts N workers, at most 15, and joins them. Each step is one of the plan.
#ifndef N
#define N 2
#endif

bool jobs;      // a mutex
bool results;   // a mutex
byte started;   // how many workers the boss has started
byte joined;    // how many it has joined
short ended;    // a bit for each worker that has ended

#define NEXT_ENDED (ended & (1 << joined))

active [N] proctype worker() {
    d_step { _pid < started && !jobs -> jobs = true };
    jobs = false;
    d_step { !results -> results = true };
    d_step { results = false; ended = ended | (1 << _pid) };
end:
    false
}

active proctype boss() {
    do
    :: d_step { started < N -> started++ }
    :: d_step { started == N && joined + 1 < N && NEXT_ENDED -> joined++ }
    :: d_step { started == N && joined + 1 == N && NEXT_ENDED -> joined++ } -> break
    od;
end:
    false
}
