/* The same wait, but a second notifier does not need the outer lock. */
#include "program.h"
MUTEX(outer);
MUTEX(state);
static pthread_cond_t changed = PTHREAD_COND_INITIALIZER;
static int is_ready;
THREAD(sleeper) {
    LOCK(outer);
    LOCK(state);
    next(NULL);
    while (!is_ready) pthread_cond_wait(&changed, &state);
    UNLOCK(state);
    UNLOCK(outer);
    return x;
}
static void wake(void) {
    LOCK(state);
    is_ready = 1;
    pthread_cond_signal(&changed);
    UNLOCK(state);
}
THREAD(waker) {
    LOCK(outer);
    wake();
    UNLOCK(outer);
    return x;
}
THREAD(other) {
    wake();
    return next(x);
}
int main(void) { IN_TURN(sleeper, other, waker); }
