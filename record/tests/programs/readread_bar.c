/* The same over locks whose waiting writers keep readers out. */
#define WRITERS_FIRST
#include "readread.c"
