/* Mutexes and threads of C11, in both orders. */
#include "program.h"
#include <threads.h>
static mtx_t a, b;
static int one(void *x) {
    mtx_lock(&a);
    mtx_lock(&b);
    mtx_unlock(&b);
    mtx_unlock(&a);
    return next(x) != NULL;
}
static int two(void *x) {
    mtx_lock(&b);
    mtx_lock(&a);
    mtx_unlock(&a);
    mtx_unlock(&b);
    return next(x) != NULL;
}
int main(void) {
    thrd_t t[2];
    mtx_init(&a, mtx_plain), mtx_init(&b, mtx_plain);
    thrd_create(&t[0], one, NULL);
    wait_for_turn(1);
    thrd_create(&t[1], two, NULL);
    thrd_join(t[0], NULL), thrd_join(t[1], NULL);
}
