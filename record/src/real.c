/* Finds the functions of the C library. One that is missing fails with ENOSYS, and the record names it. */
#define _GNU_SOURCE
#include "real.h"
#include <dlfcn.h>
#include <errno.h>
#include <string.h>

struct real real;
bool real_is_found;
const char *missing[MISSING_MAX];
int n_missing;

static int not_there(void) { return ENOSYS; }

/* Without a version, dlsym finds the condition variables of before glibc 2.3.2, which have another layout. A look-up that fails
   allocates, and an allocator may lock: so nothing is looked up that need not be there. */
static void *find(const char *name) {
    static const char *const versioned[] = {"pthread_cond_wait", "pthread_cond_timedwait", "pthread_cond_signal", "pthread_cond_broadcast"};
    void *found = NULL;
    for (size_t i = 0; i < sizeof versioned / sizeof *versioned; i++)
        if (!strcmp(name, versioned[i])) found = dlvsym(RTLD_NEXT, name, "GLIBC_2.3.2");
    if (!found) found = dlsym(RTLD_NEXT, name);
    if (found) return found;
    if (n_missing < MISSING_MAX) missing[n_missing++] = name;
    return (void *)not_there;
}

/* Finds first what an allocator calls while a look-up of something else fails. */
#define FIND(result, name, arguments) real.name = (result(*) arguments)find(#name);
void find_real(void) {
    static __thread bool is_finding;
    if (is_finding) return;
    is_finding = true;
    n_missing = 0;
    real.free = (void (*)(void *))find("free");
    EACH_REAL(FIND)
    real_is_found = true;
    is_finding = false;
}
