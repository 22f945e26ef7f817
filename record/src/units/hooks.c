/* The hooks of all other calls. */
#define _GNU_SOURCE
#include "../hooks_c11.c"
#include "../hooks_futex.c"
#include "../hooks_memory.c"
#include "../hooks_plain.c"
#include "../hooks_process.c"
#include "../hooks_semaphore.c"
#include "../hooks_signal.c"
#include "../hooks_thread.c"
#include "../hooks_wait.c"
