/* Two readers in both orders, and writers of one lock at a time. glibc's default lets readers past waiting writers. */
#include "program.h"
static pthread_rwlock_t a, b;
THREAD(one) {
    READ(a);
    READ(b);
    UNLOCK_RW(b);
    UNLOCK_RW(a);
    return next(x);
}
THREAD(two) {
    READ(b);
    READ(a);
    UNLOCK_RW(a);
    UNLOCK_RW(b);
    return next(x);
}
THREAD(write_a) {
    WRITE(a);
    UNLOCK_RW(a);
    return next(x);
}
THREAD(write_b) {
    WRITE(b);
    UNLOCK_RW(b);
    return next(x);
}
int main(void) {
    pthread_rwlockattr_t kind;
    pthread_rwlockattr_init(&kind);
#ifdef WRITERS_FIRST
    pthread_rwlockattr_setkind_np(&kind, PTHREAD_RWLOCK_PREFER_WRITER_NONRECURSIVE_NP);
#endif
    pthread_rwlock_init(&a, &kind), pthread_rwlock_init(&b, &kind);
    IN_TURN(one, two, write_a, write_b);
}
