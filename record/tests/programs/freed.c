/* A lock whose memory was freed and comes back is another one: the two gates are not one gate. */
#include "program.h"
#include <string.h>
MUTEX(a);
MUTEX(b);
static pthread_mutex_t *new_gate(void) {
    pthread_mutex_t *gate = malloc(sizeof *gate);
    memset(gate, 0, sizeof *gate);
    return gate;
}
THREAD(one) {
    pthread_mutex_t *gate = new_gate();
    LOCK(*gate);
    LOCK(a);
    LOCK(b);
    UNLOCK(b);
    UNLOCK(a);
    UNLOCK(*gate);
    free(gate);
    return next(x);
}
THREAD(two) {
    pthread_mutex_t *gate = new_gate();
    LOCK(*gate);
    LOCK(b);
    LOCK(a);
    UNLOCK(a);
    UNLOCK(b);
    UNLOCK(*gate);
    free(gate);
    return next(x);
}
int main(void) { IN_TURN(one, two); }
