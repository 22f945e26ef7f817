// N readers, and M writers that each write twice, of a lock with a bar. Each step is one of the plan.
#ifndef N
#define N 2
#endif
#ifndef M
#define M 2
#endif

byte readers;
bool writing;
byte bar;   // 0, or the number of the writer that announced itself

#define ME (_pid + 1)

inline write() {
    do
    :: d_step { !readers && !writing && (!bar || bar == ME) -> writing = true; bar = 0 } -> break
    :: d_step { (readers || writing) && !bar -> bar = ME }
    od;
    writing = false
}

active [N] proctype reader() {
    d_step { !writing && !bar -> readers++ };
    readers--;
end:
    false
}

active [M] proctype writer() {
    write();
    write();
end:
    false
}
