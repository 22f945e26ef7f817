/* Two mutexes in both orders. */
#include "program.h"
MUTEX(sessions);
MUTEX(journal);
THREAD(request) {
    LOCK(sessions);
    LOCK(journal);
    UNLOCK(journal);
    UNLOCK(sessions);
    return next(x);
}
THREAD(cleaner) {
    LOCK(journal);
    LOCK(sessions);
    UNLOCK(sessions);
    UNLOCK(journal);
    return next(x);
}
int main(void) { IN_TURN(request, cleaner); }
