// N philosophers, at most 15, at a round table, each of whom eats if the second fork is free. Each step is one of the plan.
#ifndef N
#define N 2
#endif

short taken;   // a bit for each fork

#define FIRST (1 << _pid)
#define SECOND (1 << ((_pid + 1) % N))

active [N] proctype philosopher() {
    do
    :: true ->
        d_step { !(taken & FIRST) -> taken = taken | FIRST };
        if
        :: d_step { !(taken & SECOND) -> taken = taken | SECOND };
            taken = taken & ~SECOND
        :: taken & SECOND
        fi;
        taken = taken & ~FIRST
    :: true -> break
    od;
end:
    false
}
