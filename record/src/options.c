/* Reads what the environment asks for: LOCKRECORD_OUT, LOCKRECORD_PARENT,
   LOCKRECORD_FRAMES, LOCKRECORD_SEM, LOCKRECORD_PAUSE, LOCKRECORD_PAUSE_MS, LOCKRECORD_PAUSE_ALONE. */
#include "options.h"
#include "record.h"
#include <limits.h>
#include <stdlib.h>

bool with_semaphores;

static long number_of(const char *name, long least, long most, long otherwise) {
    const char *text = getenv(name);
    if (!text) return otherwise;
    long v = strtol(text, NULL, 10);
    return v < least ? least : v > most ? most : v;
}

void read_options(void) {
    name_record(getenv("LOCKRECORD_OUT"), (pid_t)number_of("LOCKRECORD_PARENT", 0, INT_MAX, 0));
    max_frames = (int)number_of("LOCKRECORD_FRAMES", 1, FRAMES_MAX, max_frames);
    with_semaphores = number_of("LOCKRECORD_SEM", 0, 1, 0);
    pause_at_places(getenv("LOCKRECORD_PAUSE"), number_of("LOCKRECORD_PAUSE_MS", 1, 60000, 200), number_of("LOCKRECORD_PAUSE_ALONE", 0, 1, 0));
}
