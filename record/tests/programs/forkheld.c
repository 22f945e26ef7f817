/* A fork while another thread may hold a mutex that the child acquires. */
#include "program.h"
#include <sys/wait.h>
MUTEX(m);
static int n;
THREAD(work) {
    for (int i = 0; i < 50; i++) {
        LOCK(m);
        n++;
        UNLOCK(m);
        usleep(1000);
    }
    return x;
}
int main(void) {
    pthread_t t;
    pthread_create(&t, NULL, work, NULL);
    usleep(200000);
    pid_t child = fork();
    if (child == 0) {
        LOCK(m);
        n++;
        UNLOCK(m);
        _exit(0);
    }
    waitpid(child, NULL, 0);
    pthread_join(t, NULL);
}
