/* Memory that goes: a lock that comes later at such an address is another one. */
#define _GNU_SOURCE
#include "hook.h"
#include <dlfcn.h>
#include <malloc.h>

static bool knows_sizes;

/* The sizes of blocks are known if one library has both functions: an allocator may come without malloc_usable_size. */
void look_at_allocator(void) {
    Dl_info frees, sizes;
    void *size = dlsym(RTLD_DEFAULT, "malloc_usable_size");
    knows_sizes = size && dladdr((void *)real.free, &frees) && dladdr(size, &sizes) && frees.dli_fbase == sizes.dli_fbase;
}

EXPORT void free(void *p) {
    struct thread *t = self;
    if (likely(t && p && !t->busy && knows_sizes)) {
        uintptr_t from = (uintptr_t)p, to = from + malloc_usable_size(p);
        if (unlikely(has_heap_locks(from, to))) {
            begin(t);
            forget_locks_in(from, to);
            finish(t);
        }
    }
    if (unlikely(!real.free)) find_real();
    real.free(p);
}

EXPORT int dlclose(void *handle) {
    struct thread *t = mine();
    if (!t) return REAL(dlclose)(handle);
    struct going going;
    begin(t);
    note_modules();
    before_unload(&going);
    finish(t);
    int r = REAL(dlclose)(handle);
    begin(t);
    note_modules();
    after_unload(&going);
    finish(t);
    return r;
}
