/* What happens once: the options, the real functions, and the record. */
#define _GNU_SOURCE
#include "../modules.c"
#include "../notes.c"
#include "../options.c"
#include "../real.c"
#include "../writing.c"
