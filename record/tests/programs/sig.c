/* A signal handler acquires a mutex that the thread which it interrupts may hold. */
#include "program.h"
#include <signal.h>
MUTEX(m);
static int n;
static void handle(int number) {
    (void)number;
    LOCK(m);
    n++;
    UNLOCK(m);
}
THREAD(work) {
    for (int i = 0; i < 3; i++) {
        usleep(20000);
        LOCK(m);
        n++;
        UNLOCK(m);
    }
    return x;
}
int main(void) {
    pthread_t t;
    signal(SIGUSR2, handle);
    pthread_create(&t, NULL, work, NULL);
    usleep(10000);
    raise(SIGUSR2);
    LOCK(m);
    n++;
    UNLOCK(m);
    pthread_join(t, NULL);
}
