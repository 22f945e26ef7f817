/* The text of the record: a buffer and write(2) alone, so that a signal handler may write it. */
#define _GNU_SOURCE
#include "real.h"
#include "record.h"
#include <errno.h>
#include <fcntl.h>
#include <signal.h>
#include <stdarg.h>
#include <string.h>
#include <time.h>
#include <unistd.h>

static char buffer[1 << 14], record_prefix[512], record_name[600];
static size_t buffered;
static int out_fd;
static bool is_cut; /* a write failed: what follows is left out, so that the record has no end */
static pid_t recorded_pid, driver_pid;

static void flush(void) {
    for (size_t at = 0; at < buffered && !is_cut;) {
        ssize_t n = write(out_fd, buffer + at, buffered - at);
        if (n > 0) at += n;
        else if (n == 0 || errno != EINTR) is_cut = true;
    }
    buffered = 0;
}

static void put_text(const char *s) {
    for (; *s; s++) {
        if (buffered == sizeof buffer) flush();
        buffer[buffered++] = *s;
    }
}

static void put_number(uint64_t v, unsigned base) {
    char digits[24];
    int n = sizeof digits;
    digits[--n] = 0;
    do digits[--n] = "0123456789abcdef"[v % base];
    while (v /= base);
    put_text(digits + n);
}

/* %s text, %u number of 32 bits, %x hexadecimal of 64 bits */
static void put(const char *format, ...) {
    va_list args;
    va_start(args, format);
    for (char one[2] = {0}; *format; format++) {
        if (*format != '%') {
            one[0] = *format;
            put_text(one);
        } else if (*++format == 's') put_text(va_arg(args, const char *));
        else if (*format == 'u') put_number(va_arg(args, uint32_t), 10);
        else put_number(va_arg(args, uint64_t), 16);
    }
    va_end(args);
}

static void put_call(uint8_t op, uint32_t id, uint32_t site) {
    static const char *const names[] = {"lock", "read", "write", "release", "join"};
    put(" %s%s%s:%u:%u", op & OP_TRY ? "try-" : "", op & OP_WOKEN ? "woken-" : "", names[op & OP_MASK], id, site);
}

static void put_occurs(const struct occurs *o) {
    put(" |");
    if (o->any) put(" any");
    for (int i = 0; i < o->n; i++) put(" %u.%u", o->tid[i], o->segment[i]);
    put("\n");
}

static void put_frames(int n, const uintptr_t *frames) {
    for (int k = 0; k < n; k++) put(" %x", (uint64_t)frames[k]);
    put("\n");
}

static void put_program(void) {
    for (uint32_t i = 0; i < n_modules; i++) {
        const struct module *m = &modules[i];
        put("module %x %x %u %u %s\n", (uint64_t)m->base, (uint64_t)m->end, m->first, m->last, m->name);
    }
    for (uint32_t i = 0; i < n_parties; i++) {
        const struct party *p = &parties[i];
        put("party %u %x %u %u", i, (uint64_t)p->start, p->threads, p->peak);
        put_frames(p->n, p->frames);
    }
    for (uint32_t i = 0; i < n_made; i++) {
        const struct made *m = &made[i];
        put("thread %u %u %u %u %s", i, m->party, m->parent, m->parent_segment, m->joined ? "joined" : "-");
        put(" %u %u %s\n", m->joiner, m->joiner_segment, m->name);
    }
    for (uint32_t i = 0; i < n_sites; i++) {
        put("site %u %u", i, all_sites[i]->epoch);
        put_frames(all_sites[i]->n, all_sites[i]->frames);
    }
}

/* The locks of the lines `now` are written too. */
static void pin_present(void) {
    for (struct thread *t = threads; t; t = t->next) {
        if (!GET(t->in_use)) continue;
        for (int i = 0; i < GET(t->n_path); i++)
            if (GET(t->path[i].lock)) GET(t->path[i].lock)->pinned = true;
        if (GET(t->waits_lock)) GET(t->waits_lock)->pinned = true;
    }
}

static void put_flat(const struct flat *flat) {
    for (int i = 0; i < 2; i++) put(" %x:%u", GET(flat[i].parties), GET(flat[i].site));
}

static void put_locks(void) {
    static const char *const kinds[KINDS] = {"mutex",     "recursive", "errorcheck",  "rwlock",       "rwlock-bar", "spin",
                                             "semaphore", "once",      "plain-mutex", "plain-rwlock", "plain-seat"};
    for (uint32_t i = 0; i < n_classes; i++) {
        const struct class *c = all_classes[i];
        put("class %u %u %u", i, c->site, GET(c->members));
        put_flat(c->flat);
        put("%s\n", GET(c->falls_back) ? " falls-back" : "");
    }
    for (uint32_t i = 0; i < n_locks; i++) {
        const struct lock *l = all_locks[i];
        bool is_flat = GET(l->flat[0].parties) | GET(l->flat[1].parties);
        if (!l->pinned && !(GET(l->addr) && is_flat)) continue;
        put("lock %u %x %s %s%u %u %u%s%s\n", i, (uint64_t)(uintptr_t)GET(l->addr), kinds[l->kind], l->classed ? "c" : "-", l->class, l->first_site,
            l->born, GET(l->handed) ? " handed" : "", GET(l->falls_back) ? " falls-back" : "");
        if (!is_flat) continue;
        put("flat %u", i);
        put_flat(l->flat);
        put("\n");
    }
}

static void put_paths(void) {
    for (int b = 0; b < BUCKETS; b++)
        for (const struct path *p = path_table[b]; p; p = p->next) {
            put("path %u", p->party);
            for (int i = 0; i < p->n; i++) put_call(p->steps[i].op, p->steps[i].id, p->steps[i].site);
            put_occurs(&p->occurs);
        }
    for (int b = 0; b < BUCKETS; b++)
        for (const struct path *p = pattern_table[b]; p; p = p->next) {
            if (!p->overflow) continue; /* its paths are all there */
            put("pattern %u", p->party);
            for (int i = 0; i < p->n; i++) {
                const struct step *s = &p->steps[i];
                put_call(s->op, s->id, s->site);
                put(":%u:%u:%u", s->by_use, s->by_addr, s->by_age);
            }
            put_occurs(&p->occurs);
        }
}

static const char *name_of_note(char what) {
    switch (what) {
    case 'w': return "wait";
    case 't': return "timedwait";
    case 'b': return "barrier";
    case 'x': return "futex";
    case 's': return "handler";
    case 'f': return "forked";
    default: return "notify";
    }
}

static void put_notes(void) {
    for (int b = 0; b < NOTE_BUCKETS; b++)
        for (const struct note *n = notes[b]; n; n = n->next) {
            put("%s %u %x %u %u", name_of_note(n->what), n->party, (uint64_t)(uintptr_t)n->object, n->mutex, n->site);
            for (int i = 0; i < n->n; i++) put(" %u", n->held[i]);
            put("\n");
        }
}

static void put_present(const struct thread *t) {
    put("now %u %u %u", GET(t->tid), GET(t->party), t->segment);
    for (int i = 0; i < GET(t->n_path); i++) {
        struct lock *l = GET(t->path[i].lock);
        uint8_t op = GET(t->path[i].op);
        if ((op & OP_MASK) != OP_JOIN && l && l->pinned) put_call(op, l->id, GET(t->path[i].site)); /* others came since the locks were written */
    }
    void *sleeps_on = GET(t->sleeps_on);
    struct lock *l = GET(t->waits_lock);
    uint8_t op = GET(t->waits_op);
    char kind = GET(t->sleeps_kind);
    if (sleeps_on) put(" sleeps %s:%x:%u", kind == 'b' ? "barrier" : kind == 'x' ? "futex" : "condvar", (uint64_t)(uintptr_t)sleeps_on, GET(t->waits_site));
    else if (op == OP_JOIN || (op != OP_NONE && l && l->pinned)) {
        put(" waits");
        put_call(op, op == OP_JOIN ? GET(t->waits_party) : l->id, GET(t->waits_site));
    }
    put("\n");
}

static void put_counts(void) {
    static const char *const names[LIMITS] = {"locks", "held",    "length",  "paths", "patterns", "threads", "memory",
                                              "late",  "parties", "classes", "sites", "modules",  "notes"};
    for (int i = 0; i < LIMITS; i++)
        if (GET(without_room[i])) put("limit %s %u\n", names[i], GET(without_room[i]));
    for (int i = 0; i < n_missing; i++) put("missing %s\n", missing[i]);
    put("stats locks %u freed %u sites %u paths %u patterns %u cut %u handed %u kilobytes %u\n", n_born, n_freed, n_sites, n_paths, n_patterns,
        GET(n_cut), GET(n_handed), (uint32_t)(arena_bytes >> 10));
}

static void put_all(const char *why) {
    put("lockrecord 2\nwhy %s\n", why);
    pin_present();
    put_program();
    put_locks();
    put_paths();
    put_notes();
    for (const struct thread *t = threads; t; t = t->next)
        if (GET(t->in_use)) put_present(t);
    put_counts();
    put("end\n");
    flush();
}

/* The records are PREFIX.PID.rec. The driver is the process that asked for the record, or 0. */
void name_record(const char *prefix, pid_t driver) {
    recorded_pid = getpid();
    driver_pid = driver;
    if (prefix && strlen(prefix) < sizeof record_prefix) strcpy(record_prefix, prefix);
}

/* A forked child has a record of its own. */
void record_in_child(void) {
    recorded_pid = getpid();
    record_name[0] = 0;
}

/* False in a child of vfork, which shares the memory of its parent. */
bool is_recorder_of_this_process(void) { return recorded_pid == getpid(); }

static char *digits_of(char *at, unsigned v) {
    char digits[12];
    int n = 0;
    do digits[n++] = (char)('0' + v % 10);
    while (v /= 10);
    *at++ = '.';
    while (n) *at++ = digits[--n];
    return at;
}

/* Opens PREFIX.PID.rec, or PREFIX.PID.2.rec and so on: a program that called exec has left a record with the same number. */
static int open_record(void) {
    if (*record_name) return open(record_name, O_WRONLY | O_CREAT | O_TRUNC | O_CLOEXEC, 0666);
    int fd = -1;
    for (unsigned k = 1; k < 100 && fd < 0; k++) {
        strcpy(record_name, record_prefix);
        char *at = digits_of(record_name + strlen(record_name), recorded_pid);
        if (k > 1) at = digits_of(at, k);
        strcpy(at, ".rec");
        fd = open(record_name, O_WRONLY | O_CREAT | O_EXCL | O_CLOEXEC, 0666);
        if (fd < 0 && errno != EEXIST) break;
    }
    if (fd < 0) record_name[0] = 0;
    return fd;
}

/* A child that made no thread is worth a record only if it waits, perhaps for itself. The program itself always is. */
static bool is_worth_writing(void) {
    if (!ready || !*record_prefix || !is_recorder_of_this_process()) return false;
    return GET(n_made) > 1 || has_fork_notes || getppid() == driver_pid || (threads && GET(threads->waits_op) != OP_NONE);
}

/* Writes the record. A full disk or a limit on the size of files cuts it off, and does not end the program. No part of it may be cancelled. */
void write_record(const char *why) {
    if (!is_worth_writing()) return;
    int saved = errno, cancelled;
    pthread_setcancelstate(PTHREAD_CANCEL_DISABLE, &cancelled);
    sigset_t full, old, pending;
    sigemptyset(&full), sigaddset(&full, SIGXFSZ);
    pthread_sigmask(SIG_BLOCK, &full, &old);
    sigpending(&pending);
    note_modules();
    enter();
    out_fd = open_record();
    is_cut = false;
    if (out_fd >= 0) put_all(why), close(out_fd);
    leave();
    if (!sigismember(&pending, SIGXFSZ)) sigtimedwait(&full, NULL, &(struct timespec){0, 0});
    pthread_sigmask(SIG_SETMASK, &old, NULL);
    pthread_setcancelstate(cancelled, NULL);
    errno = saved;
}
