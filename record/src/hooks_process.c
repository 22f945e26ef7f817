/* The begin, the forks and the ends of the process, at which the record is written. */
#define _GNU_SOURCE
#include "hook.h"
#include "options.h"
#include <stdarg.h>
#include <stdlib.h>
#include <unistd.h>

static void write_at(const char *why) {
    struct thread *t = self;
    if (!ready || !is_recorder_of_this_process()) return;
    if (t) t->busy++;
    write_record(why);
    if (t) t->busy--;
}

static void before_fork(void) {
    if (self) self->busy++;
    enter();
}

static void in_parent(void) {
    leave();
    if (self) self->busy--;
}

static void in_child(void) {
    reset_lock();
    threads_in_child(self);
    forget_unborn();
    forget_paths();
    forget_notes();
    record_in_child();
    if (self) self->busy--;
}

static void at_quick_end(void) { write_at("quick_exit"); }

__attribute__((constructor)) static void start(void) {
    find_real();
    real_syscall = real.syscall;
    look_at_allocator();
    read_options();
    find_unwinder();
    make_exit_key();
    pthread_atfork(before_fork, in_parent, in_child);
    at_quick_exit(at_quick_end);
    note_modules();
    ready = true;
    arrive();
    catch_signals();
}

__attribute__((destructor)) static void end(void) {
    write_at("exit");
    ready = false;
    leaving = true;
}

EXPORT void _exit(int status) {
    write_at("_exit");
    REAL(_exit)(status);
    __builtin_unreachable();
}

EXPORT void _Exit(int status) {
    write_at("_Exit");
    REAL(_exit)(status);
    __builtin_unreachable();
}

/* A new program has a record of its own. If exec fails, a later one replaces this one. */
EXPORT int execve(const char *path, char *const argv[], char *const envp[]) {
    write_at("exec");
    return REAL(execve)(path, argv, envp);
}
EXPORT int execv(const char *path, char *const argv[]) {
    write_at("exec");
    return REAL(execve)(path, argv, environ);
}
EXPORT int execvpe(const char *file, char *const argv[], char *const envp[]) {
    write_at("exec");
    return REAL(execvpe)(file, argv, envp);
}
EXPORT int execvp(const char *file, char *const argv[]) {
    write_at("exec");
    return REAL(execvpe)(file, argv, environ);
}
EXPORT int fexecve(int fd, char *const argv[], char *const envp[]) {
    write_at("exec");
    return REAL(fexecve)(fd, argv, envp);
}

/* Collects the words of a call into an array, after which `args` is at what follows the NULL. */
#define WORDS(first) \
    va_list args; \
    int n = 1; \
    va_start(args, first); \
    while (va_arg(args, const char *)) n++; \
    va_end(args); \
    char *argv[n + 1]; \
    argv[0] = (char *)first; \
    va_start(args, first); \
    for (int i = 1; i <= n; i++) argv[i] = va_arg(args, char *);

EXPORT int execl(const char *path, const char *first, ...) {
    WORDS(first)
    va_end(args);
    return execv(path, argv);
}
EXPORT int execlp(const char *file, const char *first, ...) {
    WORDS(first)
    va_end(args);
    return execvp(file, argv);
}
EXPORT int execle(const char *path, const char *first, ...) {
    WORDS(first)
    char *const *envp = va_arg(args, char *const *);
    va_end(args);
    return execve(path, argv, envp);
}
