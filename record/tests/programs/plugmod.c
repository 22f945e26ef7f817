/* The plugin of plug.c. */
#include "program.h"
MUTEX(own);
static void (*back)(void);
void plug_set(void (*call)(void));
void plug_work(void);
void *plug_thread(void *x);
void plug_set(void (*call)(void)) { back = call; }
void plug_work(void) {
    LOCK(own);
    UNLOCK(own);
}
void *plug_thread(void *x) {
    usleep(50000);
    LOCK(own);
    back();
    UNLOCK(own);
    return x;
}
