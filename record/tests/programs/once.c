/* A routine of pthread_once acquires a lock below which another thread calls pthread_once. */
#include "program.h"
MUTEX(config);
static pthread_once_t once = PTHREAD_ONCE_INIT;
static void init(void) {
    LOCK(config);
    UNLOCK(config);
}
THREAD(first) { return pthread_once(&once, init), next(x); }
THREAD(second) {
    LOCK(config);
    pthread_once(&once, init);
    UNLOCK(config);
    return next(x);
}
int main(void) { IN_TURN(first, second); }
