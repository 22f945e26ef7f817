/* SIGUSR1 writes the record; SIGTERM, SIGINT and SIGABRT write it and end the program, unless the program has handlers of its own for them.
   The program does not see the recorder's handlers. */
#define _GNU_SOURCE
#include "hook.h"
#include <string.h>

static const int ours[] = {SIGUSR1, SIGTERM, SIGINT, SIGABRT};
enum { OURS = sizeof ours / sizeof *ours };
static bool is_ours[OURS]; /* the recorder's handler stands for the default */

static void on_signal(int sig) {
    int saved = errno;
    struct thread *t = self;
    if (t && t->busy) {
        t->dump_later = sig;
        return;
    }
    if (t) t->busy = 1;
    const char *why = sig == SIGTERM ? "SIGTERM" : sig == SIGINT ? "SIGINT" : sig == SIGABRT ? "SIGABRT" : "SIGUSR1";
    if (t || !leaving) write_record(why); /* a thread that begins or ends may hold the internal lock */
    if (t) t->busy = 0;
    errno = saved;
    if (sig == SIGUSR1) return;
    struct sigaction by_default = {.sa_handler = SIG_DFL};
    REAL(sigaction)(sig, &by_default, NULL);
    raise(sig);
}

/* Handles a signal that came inside the recorder. */
void tell_signal(struct thread *t) {
    int sig = t->dump_later;
    t->dump_later = 0;
    raise(sig);
}

static int index_of(int sig) {
    for (int i = 0; i < OURS; i++)
        if (ours[i] == sig) return i;
    return -1;
}

static bool is_default(const struct sigaction *action) { return !(action->sa_flags & SA_SIGINFO) && action->sa_handler == SIG_DFL; }

static int catch_signal(int sig) {
    struct sigaction own = {.sa_handler = on_signal, .sa_flags = SA_RESTART};
    return REAL(sigaction)(sig, &own, NULL);
}

void catch_signals(void) {
    for (int i = 0; i < OURS; i++) {
        struct sigaction old;
        if (REAL(sigaction)(ours[i], NULL, &old) == 0 && is_default(&old)) is_ours[i] = catch_signal(ours[i]) == 0;
    }
}

EXPORT int sigaction(int sig, const struct sigaction *new, struct sigaction *old) {
    int i = ready ? index_of(sig) : -1;
    if (i < 0) return REAL(sigaction)(sig, new, old);
    struct sigaction before = {.sa_handler = SIG_DFL};
    int r = is_ours[i] ? 0 : REAL(sigaction)(sig, NULL, &before);
    if (r == 0 && new) {
        bool becomes_ours = is_default(new);
        r = becomes_ours ? catch_signal(sig) : REAL(sigaction)(sig, new, NULL);
        if (r == 0) is_ours[i] = becomes_ours;
    }
    if (r == 0 && old) *old = before;
    return r;
}

EXPORT sighandler_t signal(int sig, sighandler_t handler) {
    struct sigaction new = {.sa_handler = handler, .sa_flags = SA_RESTART}, old;
    sigemptyset(&new.sa_mask);
    sigaddset(&new.sa_mask, sig);
    return sigaction(sig, &new, &old) == 0 ? old.sa_handler : SIG_ERR;
}
