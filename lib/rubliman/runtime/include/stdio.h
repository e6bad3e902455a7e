/* What of the standard's header the machine has: the console. */
#ifndef _STDIO_H
#define _STDIO_H

#define EOF (-1)

int putchar(int character);
int puts(const char *text);
/* The next byte that waits at the console, or EOF where none does. */
int getchar(void);
/* Knows %c %s %d %i %u %x %X %p and %%, with a width, `0` and `-` before it, and `l`. */
int printf(const char *format, ...) __attribute__((format(printf, 1, 2)));

#endif
