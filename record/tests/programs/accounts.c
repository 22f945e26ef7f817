/* Transfers between any two of 200 accounts, in any order. */
#include "program.h"
enum { ACCOUNTS = 200 };
struct account {
    pthread_mutex_t m;
    long money;
};
static struct account *accounts[ACCOUNTS];
static void transfer(struct account *from, struct account *to) {
#ifdef LOWER_FIRST
    struct account *first = from < to ? from : to, *second = from < to ? to : from;
#else
    struct account *first = from, *second = to;
#endif
    LOCK(first->m);
    LOCK(second->m);
    from->money--, to->money++;
    UNLOCK(second->m);
    UNLOCK(first->m);
}
THREAD(clerk) {
    unsigned seed = (unsigned)(long)x;
    for (int i = 0; i < 300; i++) {
        int a = rand_r(&seed) % ACCOUNTS, b = rand_r(&seed) % ACCOUNTS;
        if (a != b) transfer(accounts[a], accounts[b]);
    }
    return next(x);
}
int main(void) {
    for (int i = 0; i < ACCOUNTS; i++) accounts[i] = malloc(sizeof(struct account)), pthread_mutex_init(&accounts[i]->m, NULL);
    IN_TURN(clerk, clerk, clerk, clerk);
}
