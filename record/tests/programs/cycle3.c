/* Three mutexes in a circle. */
#include "program.h"
static pthread_mutex_t m[3] = {PTHREAD_MUTEX_INITIALIZER, PTHREAD_MUTEX_INITIALIZER, PTHREAD_MUTEX_INITIALIZER};
THREAD(pair) {
    long i = (long)x;
    LOCK(m[i]);
    LOCK(m[(i + 1) % 3]);
    UNLOCK(m[(i + 1) % 3]);
    UNLOCK(m[i]);
    return next(x);
}
int main(void) { IN_TURN(pair, pair, pair); }
