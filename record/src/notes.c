/* Waits on condition variables and barriers below other locks, and notifications, with what their threads hold. */
#include "record.h"
#include <string.h>

struct note *notes[NOTE_BUCKETS];
bool has_fork_notes; /* the record of a forked child is worth writing for these alone */
static uint32_t n_notes;

static void fill(struct note *p, const struct thread *t, const struct lock *mutex) {
    for (int k = 0; k < t->n_held; k++)
        if (t->held[k].lock != mutex) p->held[p->n++] = t->held[k].lock->id, t->held[k].lock->pinned = true;
}

void keep_note(struct thread *t, char what, void *object, struct lock *mutex, uint32_t site) {
    uint64_t h = mix(mix(what, (uintptr_t)object), t->party);
    for (int k = 0; k < t->n_held; k++)
        if (t->held[k].lock != mutex) h = mix(h, t->held[k].lock->id);
    h |= 1;
    if (t->seen[h >> 32 & (SEEN - 1)] == h) return;
    t->seen[h >> 32 & (SEEN - 1)] = h;
    enter();
    struct note *p = notes[h % NOTE_BUCKETS];
    while (p && p->hash != h) p = p->next;
    if (!p && n_notes == NOTES_MAX) no_room(AT_NOTES);
    else if (!p && (p = get(sizeof *p))) {
        *p = (struct note){.hash = h, .party = t->party, .site = site, .what = what, .object = object, .mutex = mutex ? mutex->id : ~0u};
        fill(p, t, mutex);
        if (mutex) mutex->pinned = true;
        has_fork_notes |= what == 'f';
        p->next = notes[h % NOTE_BUCKETS], notes[h % NOTE_BUCKETS] = p, n_notes++;
    }
    leave();
}

void forget_notes(void) {
    memset(notes, 0, sizeof notes);
    n_notes = 0;
    has_fork_notes = false;
}
