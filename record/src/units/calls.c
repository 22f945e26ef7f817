/* What each call of a lock goes through. Three units are compiled in place of 22 files, which read the same headers. */
#define _GNU_SOURCE
#include "../hook.c"
#include "../hooks_mutex.c"
#include "../keeping.c"
#include "../memory.c"
#include "../objects.c"
#include "../paths.c"
#include "../sites.c"
#include "../threads.c"
