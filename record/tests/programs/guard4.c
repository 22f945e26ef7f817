/* A circle of four in which the first and the third thread hold a gate; neighbours hold none. */
#include "program.h"
MUTEX(gate);
static pthread_mutex_t m[4] = {PTHREAD_MUTEX_INITIALIZER, PTHREAD_MUTEX_INITIALIZER, PTHREAD_MUTEX_INITIALIZER, PTHREAD_MUTEX_INITIALIZER};
static void pair(int i) {
    LOCK(m[i]);
    LOCK(m[(i + 1) % 4]);
    UNLOCK(m[(i + 1) % 4]);
    UNLOCK(m[i]);
}
static void pair_in_gate(int i) {
    LOCK(gate);
    pair(i);
    UNLOCK(gate);
}
THREAD(first) { return pair_in_gate(0), next(x); }
THREAD(second) { return pair(1), next(x); }
THREAD(third) { return pair_in_gate(2), next(x); }
THREAD(fourth) { return pair(3), next(x); }
int main(void) { IN_TURN(first, second, third, fourth); }
