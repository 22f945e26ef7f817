/* What the environment asks for. */
#ifndef LOCKRECORD_OPTIONS_H
#define LOCKRECORD_OPTIONS_H
#include <stdbool.h>

extern bool with_semaphores; /* LOCKRECORD_SEM=1 */
void read_options(void);

#endif
