/* Sixteen philosophers of one kind, each between two forks. */
#include "program.h"
enum { N = 16 };
static pthread_mutex_t fork_[N];
THREAD(philosopher) {
    long i = (long)x;
    LOCK(fork_[i]);
    LOCK(fork_[(i + 1) % N]);
    UNLOCK(fork_[(i + 1) % N]);
    UNLOCK(fork_[i]);
    return next(x);
}
int main(void) {
    pthread_t t[N];
    for (long i = 0; i < N; i++) pthread_mutex_init(&fork_[i], NULL);
    for (long i = 0; i < N; i++) pthread_create(&t[i], NULL, philosopher, (void *)i), wait_for_turn(i + 1);
    for (int i = 0; i < N; i++) pthread_join(t[i], NULL);
}
