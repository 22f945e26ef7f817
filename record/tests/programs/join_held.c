/* A join below a lock that the joined thread acquires. */
#include "program.h"
MUTEX(pool);
THREAD(worker) {
    LOCK(pool);
    UNLOCK(pool);
    return next(x);
}
int main(void) {
    pthread_t t;
    pthread_create(&t, NULL, worker, NULL);
    wait_for_turn(1);
    LOCK(pool);
    pthread_join(t, NULL);
    UNLOCK(pool);
}
