/* A wait acquires its mutex again below a lock that was acquired inside it. */
#include "program.h"
MUTEX(state);
MUTEX(outer);
static pthread_cond_t changed = PTHREAD_COND_INITIALIZER;
static int is_ready;
static volatile int is_asleep = 1;
THREAD(sleeper) {
    LOCK(state);
    LOCK(outer);
    next(NULL);
    while (!is_ready) pthread_cond_wait(&changed, &state); /* woken, it holds outer and waits for state */
    UNLOCK(outer);
    UNLOCK(state);
    is_asleep = 0;
    return x;
}
THREAD(waker) {
    LOCK(state);
    is_ready = 1;
    pthread_cond_signal(&changed);
    UNLOCK(state);
    while (is_asleep) usleep(1000); /* so that this run does not hang */
    LOCK(state);
    LOCK(outer);
    UNLOCK(outer);
    UNLOCK(state);
    return next(x);
}
int main(void) { IN_TURN(sleeper, waker); }
