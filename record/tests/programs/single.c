/* One thread alone uses both orders. */
#include "program.h"
MUTEX(a);
MUTEX(b);
THREAD(both) {
    LOCK(a);
    LOCK(b);
    UNLOCK(b);
    UNLOCK(a);
    LOCK(b);
    LOCK(a);
    UNLOCK(a);
    UNLOCK(b);
    return next(x);
}
THREAD(other) {
    LOCK(a);
    UNLOCK(a);
    LOCK(b);
    UNLOCK(b);
    return next(x);
}
int main(void) { IN_TURN(both, other); }
