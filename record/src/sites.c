/* The stacks of calls at which locks are made and acquired, and the places where --confirm pauses. */
#define _GNU_SOURCE
#include "record.h"
#include <dlfcn.h>
#include <errno.h>
#include <execinfo.h>
#include <link.h>
#include <stdlib.h>
#include <string.h>

static struct site *site_table[BUCKETS], nowhere; /* nowhere: site 0, for those without room */
struct site *all_sites[SITES_MAX];
uint32_t n_sites;
int max_frames = 3;
bool has_pauses, pauses_alone;
static const char *places; /* "MODULE+OFFSET,..", in hexadecimal */
static long milliseconds;
enum { PAUSES = 20 }; /* at each place */

void pause_at_places(const char *at, long each, bool alone) { places = at, milliseconds = each, has_pauses = at != NULL, pauses_alone = alone; }

static int names_place(struct dl_phdr_info *info, size_t size, void *data) {
    (void)size;
    uintptr_t addr = *(uintptr_t *)data;
    const char *name = strrchr(info->dlpi_name, '/'), *end;
    name = name ? name + 1 : *info->dlpi_name ? info->dlpi_name : "-"; /* -: the program */
    size_t n = strlen(name);
    for (const char *at = places; *at; at = *end == ',' ? end + 1 : end) {
        for (end = at; *end && *end != ','; end++) {}
        if (!strncmp(at, name, n) && at[n] == '+' && info->dlpi_addr + strtoull(at + n + 1, NULL, 16) == addr) return 1;
    }
    return 0;
}

bool is_paused(uint32_t site) { return GET(all_sites[site]->pauses) > 0; }

void pause_here(uint32_t site) {
    __atomic_fetch_sub(&all_sites[site]->pauses, 1, __ATOMIC_RELAXED);
    nap(milliseconds * 1000000);
}

/* A stack of calls, from the caller of a hook on. */
struct stack {
    int n;
    bool in_handler;
    uintptr_t frames[WALK_MAX];
};

/* The stack goes through a module that was unloaded, so that the unwinder would read what is no longer there. */
static __thread bool is_broken __attribute__((tls_model("initial-exec")));

/* Whether a signal handler returns to this address: to the call of sigreturn, by which unwinders know it. */
static bool is_trampoline(uintptr_t at) {
    static const unsigned char code[] = {0x48, 0xc7, 0xc0, 0x0f, 0, 0, 0, 0x0f, 0x05};
    const unsigned char *there = (const unsigned char *)at;
    for (size_t i = 0; i < sizeof code; i++)
        if (there[i] != code[i]) return false; /* what comes after may not be there */
    return true;
}

/* The return addresses from this caller on, or the caller alone if the stack does not have it. */
static struct stack stack_at(caller_t caller) {
    struct stack stack = {.n = 1, .frames = {*caller}};
    uintptr_t all[WALK_MAX + 8];
    int saved = errno, from = 0, n = max_frames > 1 && !is_broken ? backtrace((void **)all, WALK_MAX + 8) : 0;
    errno = saved;
    while (from < n && all[from] != *caller) from++;
    while (stack.n < WALK_MAX && ++from < n) {
        stack.frames[stack.n++] = all[from];
        stack.in_handler |= is_trampoline(all[from]);
    }
    return stack;
}

int stack_of(caller_t caller, uintptr_t *frames, int most) {
    struct stack stack = stack_at(caller);
    int n = stack.n < most ? stack.n : most;
    memcpy(frames, stack.frames, n * sizeof *frames);
    return n;
}

void before_unload(struct going *going) {
    int n = is_broken || max_frames == 1 ? 0 : backtrace((void **)going->frames, GOING_MAX);
    going->n = 0;
    for (int i = 0; i < n; i++)
        if (is_in_module(going->frames[i])) going->frames[going->n++] = going->frames[i];
}

void after_unload(const struct going *going) {
    for (int i = 0; i < going->n && !is_broken; i++) is_broken = !is_in_module(going->frames[i]);
}

/* The code of a function, as libgcc describes it: pc_begin and the length are relative, of 32 bits. */
struct description {
    uint32_t length, info;
    int32_t begin;
    uint32_t size;
};
struct bases {
    void *text, *data;
    uintptr_t function;
};
static const struct description *(*describe)(uintptr_t pc, struct bases *bases);

void find_unwinder(void) {
    void *warm[2], *unwinder;
    backtrace(warm, 2); /* loads the unwinder now: later it might allocate inside the program's malloc */
    unwinder = dlopen("libgcc_s.so.1", RTLD_LAZY | RTLD_NOLOAD);
    if (unwinder) describe = (const struct description *(*)(uintptr_t, struct bases *))dlsym(unwinder, "_Unwind_Find_FDE");
}

/* Whether a return address lies in a small function. */
static bool is_small(uintptr_t at) {
    struct bases bases;
    const struct description *it = describe ? describe(at - 1, &bases) : NULL;
    return it && (uintptr_t)&it->begin + (intptr_t)it->begin == bases.function && it->size <= SMALL;
}

uint64_t hops[HOP_SLOTS];

/* Notes where small functions on the stack have their return addresses. */
static void learn_hops(caller_t caller, const struct stack *stack) {
    enum { WORDS = 64 }; /* of a small function's frame */
    for (int i = 0; i < HOPS && i + 1 < stack->n && is_small(*caller); i++) {
        int words = 1;
        while (words < WORDS && caller[words] != stack->frames[i + 1]) words++;
        if (words == WORDS) return;
        SET(*hop_of(*caller), (uint64_t)*caller << 16 | words);
        caller += words;
    }
}

static struct site *find_site(uintptr_t key) {
    enter();
    struct site *s = site_table[key % BUCKETS];
    while (s && s->key != key) s = s->next;
    leave();
    return s;
}

/* Adds a site. Without room it is nowhere, and the record says so. */
static struct site *add_site(uintptr_t key, const struct stack *stack) {
    uintptr_t first = stack->frames[0];
    int pauses = has_pauses && dl_iterate_phdr(names_place, &first) ? PAUSES : 0;
    enter();
    struct site *s = NULL;
    if (!n_sites) all_sites[n_sites++] = &nowhere;
    if (n_sites == SITES_MAX) no_room(AT_SITES);
    else s = get(sizeof *s);
    if (s) {
        s->key = key, s->id = n_sites, s->pauses = pauses, s->epoch = epoch, s->in_handler = stack->in_handler;
        s->n = stack->n < FRAMES_MAX ? stack->n : FRAMES_MAX;
        memcpy(s->frames, stack->frames, s->n * sizeof *s->frames);
        s->next = site_table[key % BUCKETS];
        site_table[key % BUCKETS] = s;
        all_sites[n_sites++] = s;
    } else s = &nowhere;
    leave();
    return s;
}

uint32_t slow_site_of(struct thread *t, caller_t caller, uint64_t salt) {
    uintptr_t key = site_key(caller, salt);
    struct site *s = find_site(key);
    if (!s) {
        struct stack stack = stack_at(caller);
        learn_hops(caller, &stack);
        key = site_key(caller, salt);
        s = find_site(key);
        if (!s) s = add_site(key, &stack);
    }
    if (s->in_handler) t->watches = true;
    unsigned slot = key % CACHE;
    t->sites[slot].key = key;
    return t->sites[slot].site = s->id;
}

/* The site where a lock is made: each stack is one of its own, since wrappers make locks of many kinds. */
uint32_t site_of_stack(caller_t caller) {
    struct stack stack = stack_at(caller);
    uintptr_t key = 1 + GET(epoch);
    learn_hops(caller, &stack);
    int small = 0;
    while (small < HOPS && small + 1 < stack.n && is_small(stack.frames[small])) small++;
    if (stack.n > small + max_frames) stack.n = small + max_frames;
    for (int i = 0; i < stack.n; i++) key = mix(key, stack.frames[i]);
    struct site *s = find_site(key);
    return (s ? s : add_site(key, &stack))->id;
}
