/* The gate is released once both inner locks are held, and a third lock follows. */
#include "program.h"
MUTEX(gate);
MUTEX(a);
MUTEX(b);
MUTEX(c);
THREAD(one) {
    LOCK(gate);
    LOCK(a);
    LOCK(b);
    UNLOCK(gate);
    LOCK(c);
    UNLOCK(c);
    UNLOCK(b);
    UNLOCK(a);
    return next(x);
}
THREAD(two) {
    LOCK(gate);
    LOCK(b);
    LOCK(a);
    UNLOCK(gate);
    LOCK(c);
    UNLOCK(c);
    UNLOCK(a);
    UNLOCK(b);
    return next(x);
}
int main(void) { IN_TURN(one, two); }
