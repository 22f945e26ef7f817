/* A read, then a mutex; and the mutex, then a write. */
#include "program.h"
static pthread_rwlock_t r = PTHREAD_RWLOCK_INITIALIZER;
MUTEX(m);
THREAD(one) {
    READ(r);
    LOCK(m);
    UNLOCK(m);
    UNLOCK_RW(r);
    return x;
}
THREAD(two) {
    usleep(50000);
    LOCK(m);
    WRITE(r);
    UNLOCK_RW(r);
    UNLOCK(m);
    return x;
}
int main(void) {
    pthread_t t, u;
    pthread_create(&t, NULL, one, NULL);
    pthread_create(&u, NULL, two, NULL);
    pthread_join(t, NULL);
    pthread_join(u, NULL);
}
