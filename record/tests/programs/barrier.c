/* A barrier orders the two threads. */
#include "program.h"
MUTEX(a);
MUTEX(b);
static pthread_barrier_t phase;
THREAD(one) {
    LOCK(a);
    LOCK(b);
    UNLOCK(b);
    UNLOCK(a);
    next(NULL);
    pthread_barrier_wait(&phase);
    return x;
}
THREAD(two) {
    pthread_barrier_wait(&phase);
    LOCK(b);
    LOCK(a);
    UNLOCK(a);
    UNLOCK(b);
    return x;
}
int main(void) {
    pthread_barrier_init(&phase, NULL, 2);
    IN_TURN(one, two);
}
