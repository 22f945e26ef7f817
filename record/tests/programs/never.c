/* A circle through a mutex, a read and a write, of threads that never meet in this run. */
#include "program.h"
MUTEX(journal);
static pthread_rwlock_t config = PTHREAD_RWLOCK_INITIALIZER;
THREAD(request) {
    READ(config);
    LOCK(journal);
    UNLOCK(journal);
    UNLOCK_RW(config);
    return next(x);
}
THREAD(reload) {
    LOCK(journal);
    WRITE(config);
    UNLOCK_RW(config);
    UNLOCK(journal);
    return next(x);
}
int main(void) { IN_TURN(request, request, request, reload); }
