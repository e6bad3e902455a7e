/* What of the standard's header the runtime has. */
#ifndef _STDLIB_H
#define _STDLIB_H

#include <stddef.h>

/* Ends the program: the machine stops, with the status in a register. */
void exit(int status) __attribute__((noreturn));

#endif
