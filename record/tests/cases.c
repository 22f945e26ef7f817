/* usage: cases WORD: a program that does what the word says. */
#include "programs/program.h"
#include <dlfcn.h>
#include <pthread.h>
#include <signal.h>
#include <stdio.h>
#include <string.h>
#include <sys/wait.h>
MUTEX(a);
MUTEX(b);
static pthread_barrier_t both;
static int meet;

THREAD(one) {
    LOCK(a);
    if (meet) pthread_barrier_wait(&both);
    LOCK(b);
    UNLOCK(b);
    UNLOCK(a);
    return next(x);
}
THREAD(two) {
    LOCK(b);
    if (meet) pthread_barrier_wait(&both);
    LOCK(a);
    UNLOCK(a);
    UNLOCK(b);
    return next(x);
}
static int in_order(void) { return IN_TURN(one, one), 0; }
static int both_orders(void) { return IN_TURN(one, two), 0; }

static int hang(void) {
    pthread_t t[2];
    meet = 1;
    pthread_barrier_init(&both, NULL, 2);
    pthread_create(&t[0], NULL, one, NULL), pthread_create(&t[1], NULL, two, NULL);
    pthread_setname_np(t[0], "payments");
    return pthread_join(t[0], NULL);
}

static pthread_mutex_t m[110];
THREAD(hold_many) {
    for (int i = 0; i < 110; i++) LOCK(m[i]);
    for (int i = 0; i < 110; i++) UNLOCK(m[i]);
    return next(x);
}
static int hold(void) { return IN_TURN(hold_many), 0; }

static void ignore(int sig) { (void)sig; }
static int see_signals(void) {
    struct sigaction old;
    in_order();
    if (sigaction(SIGTERM, NULL, &old) || old.sa_handler != SIG_DFL) return 1;
    if (signal(SIGTERM, ignore) != SIG_DFL || signal(SIGTERM, SIG_DFL) != ignore) return 2;
    if (sigaction(SIGTERM, NULL, &old) || old.sa_handler != SIG_DFL) return 3;
    return 7;
}

static int call_exec(void) {
    both_orders();
    execl("/bin/sh", "sh", "-c", "exit 5", (char *)NULL);
    return 1;
}

static int fork_child(void) {
    int status = 1;
    in_order();
    if (fork() == 0) exit(both_orders());
    wait(&status);
    return status;
}

static void (*use)(pthread_mutex_t *first, pthread_mutex_t *second);
THREAD(use_plugin) { return use(&a, &b), next(x); }
THREAD(use_again) { return use(&b, &a), next(x); }
static int unload(const char *path) {
    const start_fn start[] = {use_plugin, use_again};
    pthread_t t[2];
    for (int i = 0; i < 2; i++) {
        void *handle = dlopen(path, RTLD_NOW);
        if (!handle) return fprintf(stderr, "%s\n", dlerror()), 1;
        use = (void (*)(pthread_mutex_t *, pthread_mutex_t *))dlsym(handle, "use");
        pthread_create(&t[i], NULL, start[i], NULL);
        wait_for_turn(i + 1);
        dlclose(handle);
    }
    return pthread_join(t[0], NULL) + pthread_join(t[1], NULL);
}

/* The plugin calls back, and never gets control again: its module goes below it. */
static void *closing;
static void close_and_exit(void) {
    dlclose(closing);
    in_order();
    exit(8);
}
static int unload_caller(const char *path) {
    closing = dlopen(path, RTLD_NOW);
    if (!closing) return fprintf(stderr, "%s\n", dlerror()), 1;
    ((void (*)(void (*)(void)))dlsym(closing, "call"))(close_and_exit);
    return 1;
}

THREAD(use_and_destroy) {
    pthread_mutex_t own = PTHREAD_MUTEX_INITIALIZER;
    LOCK(own);
    UNLOCK(own);
    pthread_mutex_destroy(&own);
    return next(x);
}
static int destroy(void) { return IN_TURN(use_and_destroy), 0; }

static int call_abort(void) {
    both_orders();
    abort();
}

static void unlock(void *m) { pthread_mutex_unlock(m); }
static void *sleep_until_cancelled(void *x) {
    static pthread_cond_t never = PTHREAD_COND_INITIALIZER;
    LOCK(a);
    pthread_cleanup_push(unlock, &a);
    next(NULL);
    for (;;) pthread_cond_wait(&never, &a);
    pthread_cleanup_pop(1);
    return x;
}
static int cancel(void) {
    pthread_t t;
    pthread_create(&t, NULL, sleep_until_cancelled, NULL);
    wait_for_turn(1);
    pthread_cancel(t);
    return pthread_join(t, NULL) + in_order();
}

int main(int argc, char **argv) {
    const struct {
        const char *word;
        int (*does)(void);
    } words[] = {
        {"both-orders", both_orders}, {"hang", hang}, {"hold", hold}, {"signals", see_signals}, {"exec", call_exec}, {"fork", fork_child}, {"cancel", cancel}, {"abort", call_abort},
        {"destroy", destroy}, {"in-order", in_order},
    };
    if (argc == 3) return argv[1][0] == 'u' ? unload(argv[2]) : unload_caller(argv[2]); /* cases unload|close PLUGIN */
    for (size_t i = 0; argc == 2 && i < sizeof words / sizeof *words; i++)
        if (!strcmp(argv[1], words[i].word)) return words[i].does();
    return argc == 1 ? 0 : atoi(argv[1]);
}
