/* Detached threads acquire two mutexes in both orders. */
#include "program.h"
MUTEX(a);
MUTEX(b);
THREAD(one) {
    LOCK(a);
    LOCK(b);
    UNLOCK(b);
    UNLOCK(a);
    return x;
}
THREAD(two) {
    usleep(50000);
    LOCK(b);
    LOCK(a);
    UNLOCK(a);
    UNLOCK(b);
    return x;
}
int main(void) {
    pthread_t t;
    pthread_attr_t detached;
    pthread_attr_init(&detached);
    pthread_attr_setdetachstate(&detached, PTHREAD_CREATE_DETACHED);
    pthread_create(&t, &detached, one, NULL);
    pthread_create(&t, &detached, two, NULL);
    usleep(200000);
}
