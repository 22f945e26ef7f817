/* The same, the lower address first. */
#define LOWER_FIRST
#include "accounts.c"
