/* Nested reads beside a writer of a lock that prefers readers. */
#include "program.h"
static pthread_rwlock_t r = PTHREAD_RWLOCK_INITIALIZER;
static int n;
THREAD(reads) {
    for (int i = 0; i < 300; i++) {
        READ(r);
        READ(r);
        UNLOCK_RW(r);
        UNLOCK_RW(r);
    }
    return x;
}
THREAD(writes) {
    for (int i = 0; i < 300; i++) {
        WRITE(r);
        n++;
        UNLOCK_RW(r);
    }
    return x;
}
int main(void) {
    pthread_t t, u, v;
    pthread_create(&t, NULL, reads, NULL);
    pthread_create(&u, NULL, writes, NULL);
    pthread_create(&v, NULL, reads, NULL);
    pthread_join(t, NULL);
    pthread_join(u, NULL);
    pthread_join(v, NULL);
}
