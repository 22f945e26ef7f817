/* Waits of C++ and Rust: std::future, atomics and barriers of C++20 and the locks of Rust's std call futex by syscall(). */
#define _GNU_SOURCE
#include "hook.h"
#include <linux/futex.h>
#include <sys/syscall.h>

/* All other calls go on to the C library as they came: some return twice, or on another stack. Before the C library is known, the
   call is made here. */
__attribute__((visibility("hidden"))) long (*real_syscall)(long, ...);
__asm__(".text\n"
        ".globl syscall\n"
        ".type syscall, @function\n"
        "syscall:\n"
        "    cmp $202, %rdi\n" /* SYS_futex */
        "    je syscall_futex\n"
        "    mov real_syscall(%rip), %rax\n"
        "    test %rax, %rax\n"
        "    je 1f\n"
        "    jmp *%rax\n"
        "1:  mov %rdi, %rax\n"
        "    mov %rsi, %rdi\n"
        "    mov %rdx, %rsi\n"
        "    mov %rcx, %rdx\n"
        "    mov %r8, %r10\n"
        "    mov %r9, %r8\n"
        "    mov 8(%rsp), %r9\n"
        "    syscall\n"
        "    cmp $-4095, %rax\n"
        "    jae 2f\n"
        "    ret\n"
        "2:  neg %rax\n"
        "    push %rax\n"
        "    call __errno_location@PLT\n"
        "    pop %rcx\n"
        "    mov %ecx, (%rax)\n"
        "    mov $-1, %rax\n"
        "    ret\n"
        ".size syscall, . - syscall\n");

static bool may_sleep_for_ever(long op, const void *timeout) {
    long command = op & FUTEX_CMD_MASK;
    return (command == FUTEX_WAIT || command == FUTEX_WAIT_BITSET) && !timeout;
}

__attribute__((visibility("hidden"), used)) long syscall_futex(long number, void *addr, long op, long value, void *timeout, void *other, long value3) {
    struct thread *t = may_sleep_for_ever(op, timeout) ? mine() : NULL;
    if (t) {
        begin(t);
        uint32_t site = site_of(t, CALLER, 4);
        if (t->n_held) keep_note(t, 'x', addr, NULL, site);
        SET(t->waits_site, site), SET(t->sleeps_kind, 'x'), SET(t->sleeps_on, addr);
        finish(t);
    }
    long r = REAL(syscall)(number, addr, op, value, timeout, other, value3);
    if (t) SET(t->sleeps_on, NULL);
    return r;
}
