/* An allocator that locks, as jemalloc does, and that has no malloc_usable_size. It gives no memory back. */
#include <pthread.h>
#include <stddef.h>
#include <string.h>

static _Alignas(16) char arena[1 << 24];
static size_t used;
static pthread_mutex_t lock = PTHREAD_MUTEX_INITIALIZER;

void *malloc(size_t size) {
    if (pthread_mutex_trylock(&lock)) pthread_mutex_lock(&lock);
    size = (size + 15) & ~(size_t)15;
    void *p = size < sizeof arena - 16 - used ? arena + used + 16 : NULL;
    if (p) memcpy(arena + used, &size, sizeof size), used += size + 16;
    pthread_mutex_unlock(&lock);
    return p;
}

void free(void *p) {
    pthread_mutex_lock(&lock);
    (void)p;
    pthread_mutex_unlock(&lock);
}

void *calloc(size_t n, size_t size) { return malloc(n * size); } /* the arena is zeroed */

void *realloc(void *p, size_t size) {
    size_t old = 0;
    void *new = malloc(size);
    if (p) memcpy(&old, (char *)p - 16, sizeof old);
    return p && new ? memcpy(new, p, old < size ? old : size) : new;
}
