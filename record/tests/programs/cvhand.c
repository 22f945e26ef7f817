/* A sleep below a second lock that the waker needs. In this run the waker comes first, so that nobody sleeps. */
#include "program.h"
MUTEX(a);
MUTEX(b);
static pthread_cond_t changed = PTHREAD_COND_INITIALIZER;
static int is_ready;
THREAD(produce) {
    LOCK(a);
    LOCK(b);
    is_ready = 1;
    pthread_cond_signal(&changed);
    UNLOCK(b);
    UNLOCK(a);
    return x;
}
THREAD(consume) {
    usleep(100000);
    LOCK(a);
    LOCK(b);
    while (!is_ready) pthread_cond_wait(&changed, &b);
    UNLOCK(b);
    UNLOCK(a);
    return x;
}
int main(void) {
    pthread_t t, u;
    pthread_create(&t, NULL, produce, NULL);
    pthread_create(&u, NULL, consume, NULL);
    pthread_join(t, NULL);
    pthread_join(u, NULL);
}
