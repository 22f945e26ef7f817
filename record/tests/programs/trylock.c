/* The second order backs off when a try is refused. */
#include "program.h"
MUTEX(a);
MUTEX(b);
THREAD(one) {
    LOCK(a);
    LOCK(b);
    UNLOCK(b);
    UNLOCK(a);
    return next(x);
}
THREAD(two) {
    for (;;) {
        LOCK(b);
        if (pthread_mutex_trylock(&a) == 0) break;
        UNLOCK(b);
    }
    UNLOCK(a);
    UNLOCK(b);
    return next(x);
}
int main(void) { IN_TURN(one, two); }
