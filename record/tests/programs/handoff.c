/* A wait below an outer lock that its only notifier needs. In this run nobody waits. */
#include "program.h"
MUTEX(outer);
MUTEX(state);
static pthread_cond_t changed = PTHREAD_COND_INITIALIZER;
static int is_ready;
THREAD(sleeper) {
    LOCK(outer);
    LOCK(state);
    while (!is_ready) pthread_cond_wait(&changed, &state);
    UNLOCK(state);
    UNLOCK(outer);
    return next(x);
}
THREAD(waker) {
    LOCK(outer);
    LOCK(state);
    is_ready = 1;
    pthread_cond_signal(&changed);
    UNLOCK(state);
    UNLOCK(outer);
    return next(x);
}
int main(void) { IN_TURN(waker, sleeper); }
