/* Both orders inside a gate. */
#include "program.h"
MUTEX(gate);
MUTEX(a);
MUTEX(b);
THREAD(one) {
    LOCK(gate);
    LOCK(a);
    LOCK(b);
    UNLOCK(b);
    UNLOCK(a);
    UNLOCK(gate);
    return next(x);
}
THREAD(two) {
    LOCK(gate);
    LOCK(b);
    LOCK(a);
    UNLOCK(a);
    UNLOCK(b);
    UNLOCK(gate);
    return next(x);
}
int main(void) { IN_TURN(one, two); }
