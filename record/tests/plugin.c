/* A plugin with a gate of its own: each time it is loaded, it has another one, even where they lie at one address. */
#include <pthread.h>
static pthread_mutex_t gate = PTHREAD_MUTEX_INITIALIZER;
void use(pthread_mutex_t *first, pthread_mutex_t *second);
void use(pthread_mutex_t *first, pthread_mutex_t *second) {
    pthread_mutex_lock(&gate);
    pthread_mutex_lock(first);
    pthread_mutex_lock(second);
    pthread_mutex_unlock(second);
    pthread_mutex_unlock(first);
    pthread_mutex_unlock(&gate);
}

void call(void (*back)(void));
void call(void (*back)(void)) {
    back();
    __asm__ volatile(""); /* no tail call: the stack goes through this module */
}
