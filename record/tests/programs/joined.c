/* The second order begins after the thread with the first one was joined. */
#include "program.h"
MUTEX(a);
MUTEX(b);
THREAD(one) {
    LOCK(a);
    LOCK(b);
    UNLOCK(b);
    UNLOCK(a);
    return next(x);
}
THREAD(two) {
    LOCK(b);
    LOCK(a);
    UNLOCK(a);
    UNLOCK(b);
    return next(x);
}
int main(void) {
    two(NULL); /* alone, at the start */
    IN_TURN(one);
    IN_TURN(two);
}
