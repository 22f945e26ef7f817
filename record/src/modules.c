/* The modules that were loaded, with those that dlclose unloaded: an address means another line after it. */
#define _GNU_SOURCE
#include "record.h"
#include <errno.h>
#include <link.h>
#include <sched.h>
#include <stdatomic.h>
#include <string.h>
#include <unistd.h>

struct module modules[MODULES_MAX];
uint32_t n_modules, epoch;

static uintptr_t end_of(const struct dl_phdr_info *info) {
    uintptr_t end = 0;
    for (int i = 0; i < info->dlpi_phnum; i++) {
        const ElfW(Phdr) *p = &info->dlpi_phdr[i];
        if (p->p_type == PT_LOAD && p->p_vaddr + p->p_memsz > end) end = p->p_vaddr + p->p_memsz;
    }
    return info->dlpi_addr + end;
}

static void name_module(struct module *m, const char *name) {
    if (*name) {
        strncpy(m->name, name, sizeof m->name - 1);
    } else { /* the program itself */
        ssize_t n = readlink("/proc/self/exe", m->name, sizeof m->name - 1);
        m->name[n < 0 ? 0 : n] = 0;
    }
}

static int note_module(struct dl_phdr_info *info, size_t size, void *data) {
    (void)size, (void)data;
    uintptr_t end = end_of(info);
    for (uint32_t i = 0; i < n_modules; i++) {
        struct module *m = &modules[i];
        if (m->last == ~0u && m->base == info->dlpi_addr && m->end == end) return m->seen = true, 0;
    }
    if (n_modules == MODULES_MAX) return no_room(AT_MODULES), 0;
    struct module *m = &modules[n_modules++];
    m->base = info->dlpi_addr, m->end = end, m->first = epoch, m->last = ~0u, m->seen = true;
    name_module(m, info->dlpi_name);
    return 0;
}

/* Notes which modules are there. The locks of those that are gone are forgotten. */
void note_modules(void) {
    static atomic_int notes;
    int saved = errno;
    while (atomic_exchange(&notes, 1)) sched_yield();
    for (uint32_t i = 0; i < n_modules; i++) modules[i].seen = false;
    dl_iterate_phdr(note_module, NULL);
    bool is_unloaded = false;
    for (uint32_t i = 0; i < n_modules; i++) {
        struct module *m = &modules[i];
        if (m->seen || m->last != ~0u) continue;
        m->last = epoch, is_unloaded = true;
        forget_locks_in(m->base, m->end);
    }
    if (is_unloaded) SET(epoch, epoch + 1);
    atomic_store(&notes, 0);
    errno = saved;
}

struct place {
    uintptr_t addr;
    bool found;
};

static int has_place(struct dl_phdr_info *info, size_t size, void *data) {
    (void)size;
    struct place *place = data;
    for (int i = 0; i < info->dlpi_phnum; i++) {
        const ElfW(Phdr) *p = &info->dlpi_phdr[i];
        uintptr_t from = info->dlpi_addr + p->p_vaddr;
        if (p->p_type == PT_LOAD && place->addr >= from && place->addr < from + p->p_memsz) return place->found = true;
    }
    return 0;
}

bool is_in_module(uintptr_t addr) {
    struct place place = {addr, false};
    dl_iterate_phdr(has_place, &place);
    return place.found;
}
