/* Both orders in two phases, and a barrier between them, over which no lock is held. */
#include "program.h"
MUTEX(a);
MUTEX(b);
static pthread_barrier_t phase;
THREAD(both) {
    LOCK(a);
    LOCK(b);
    UNLOCK(b);
    UNLOCK(a);
    pthread_barrier_wait(&phase);
    LOCK(b);
    LOCK(a);
    UNLOCK(a);
    UNLOCK(b);
    return x;
}
int main(void) {
    pthread_t t, u;
    pthread_barrier_init(&phase, NULL, 2);
    pthread_create(&t, NULL, both, NULL);
    pthread_create(&u, NULL, both, NULL);
    pthread_join(t, NULL);
    pthread_join(u, NULL);
}
