/* The main thread acquires the mutexes in the other order before it makes threads. */
#include "program.h"
MUTEX(a);
MUTEX(b);
THREAD(one) {
    LOCK(a);
    LOCK(b);
    UNLOCK(b);
    UNLOCK(a);
    return x;
}
int main(void) {
    pthread_t t, u;
    LOCK(b);
    LOCK(a);
    UNLOCK(a);
    UNLOCK(b);
    pthread_create(&t, NULL, one, NULL);
    pthread_create(&u, NULL, one, NULL);
    pthread_join(t, NULL);
    pthread_join(u, NULL);
}
