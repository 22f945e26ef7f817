/* A recursive mutex is acquired again below another lock. */
#include "program.h"
static pthread_mutex_t tree;
MUTEX(leaf);
THREAD(visit) {
    LOCK(tree);
    LOCK(leaf);
    LOCK(tree);
    UNLOCK(tree);
    UNLOCK(leaf);
    UNLOCK(tree);
    return next(x);
}
int main(void) {
    pthread_mutexattr_t kind;
    pthread_mutexattr_init(&kind);
    pthread_mutexattr_settype(&kind, PTHREAD_MUTEX_RECURSIVE);
    pthread_mutex_init(&tree, &kind);
    IN_TURN(visit, visit);
}
