/* Both orders, with deadlines at the second mutex, after which a thread releases the first. */
#include "program.h"
#include <time.h>
MUTEX(a);
MUTEX(b);
static int lock_soon(pthread_mutex_t *m) {
    struct timespec at;
    clock_gettime(CLOCK_REALTIME, &at);
    at.tv_nsec += 20000000;
    if (at.tv_nsec >= 1000000000) at.tv_sec++, at.tv_nsec -= 1000000000;
    return pthread_mutex_timedlock(m, &at);
}
static void lock_both(pthread_mutex_t *first, pthread_mutex_t *second, int pause) {
    for (;;) {
        pthread_mutex_lock(first);
        if (!lock_soon(second)) break;
        pthread_mutex_unlock(first);
        usleep(pause);
    }
    pthread_mutex_unlock(second);
    pthread_mutex_unlock(first);
}
THREAD(one) {
    lock_both(&a, &b, 1000);
    return x;
}
THREAD(two) {
    usleep(50000);
    lock_both(&b, &a, 3000);
    return x;
}
int main(void) {
    pthread_t t, u;
    pthread_create(&t, NULL, one, NULL);
    pthread_create(&u, NULL, two, NULL);
    pthread_join(t, NULL);
    pthread_join(u, NULL);
}
