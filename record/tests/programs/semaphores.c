/* Semaphores of one permit in both orders: seen with --sem alone. */
#include "program.h"
#include <semaphore.h>
static sem_t a, b;
THREAD(one) {
    sem_wait(&a);
    sem_wait(&b);
    sem_post(&b);
    sem_post(&a);
    return next(x);
}
THREAD(two) {
    sem_wait(&b);
    sem_wait(&a);
    sem_post(&a);
    sem_post(&b);
    return next(x);
}
int main(void) {
    sem_init(&a, 0, 1), sem_init(&b, 0, 1);
    IN_TURN(one, two);
}
