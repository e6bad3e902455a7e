/* What C programs call without naming it, or expect to be there: console, memory, 64-bit division, and traps that no
   handler takes. */
#include <sparc8.h>
#include <stdarg.h>
#include <stddef.h>
#include <stdio.h>
#include <stdlib.h>
#include <string.h>

int putchar(int character)
{
    SPARC8_CONSOLE_OUTPUT = (unsigned)character;
    return (unsigned char)character;
}

int puts(const char *text)
{
    while (*text)
        putchar(*text++);
    return putchar('\n');
}

int getchar(void)
{
    return SPARC8_CONSOLE_WAITING ? (int)SPARC8_CONSOLE_INPUT : EOF;
}

void *memcpy(void *to, const void *from, size_t count)
{
    unsigned char *into = to;
    const unsigned char *out = from;
    while (count--)
        *into++ = *out++;
    return to;
}

void *memmove(void *to, const void *from, size_t count)
{
    unsigned char *into = to;
    const unsigned char *out = from;
    if (into <= out)
        return memcpy(to, from, count);
    while (count--)
        into[count] = out[count];
    return to;
}

void *memset(void *to, int value, size_t count)
{
    unsigned char *into = to;
    while (count--)
        *into++ = (unsigned char)value;
    return to;
}

int memcmp(const void *one, const void *other, size_t count)
{
    const unsigned char *left = one, *right = other;
    for (; count; count--, left++, right++)
        if (*left != *right)
            return *left - *right;
    return 0;
}

size_t strlen(const char *text)
{
    const char *end = text;
    while (*end)
        end++;
    return (size_t)(end - text);
}

int strcmp(const char *one, const char *other)
{
    while (*one && *one == *other)
        one++, other++;
    return (unsigned char)*one - (unsigned char)*other;
}

char *strcpy(char *to, const char *from)
{
    char *into = to;
    while ((*into++ = *from++))
        ;
    return to;
}

typedef unsigned long long wide;

static wide divide(wide left, wide right, wide *rest)
{
    wide quotient = 0, remainder = 0;
    if (!right)
        __asm__ volatile("udiv %g0, %g0, %g0"); /* the trap that a division of words raises */
    for (int bit = 63; bit >= 0; bit--) {
        int carry = (int)(remainder >> 63);
        remainder = remainder << 1 | (left >> bit & 1);
        if (carry || remainder >= right) {
            remainder -= right;
            quotient |= 1ull << bit;
        }
    }
    *rest = remainder;
    return quotient;
}

static wide size_of(long long value)
{
    return value < 0 ? -(wide)value : (wide)value;
}

wide __udivdi3(wide left, wide right)
{
    wide rest;
    return divide(left, right, &rest);
}

wide __umoddi3(wide left, wide right)
{
    wide rest;
    divide(left, right, &rest);
    return rest;
}

long long __divdi3(long long left, long long right)
{
    wide rest, quotient = divide(size_of(left), size_of(right), &rest);
    return (long long)((left < 0) != (right < 0) ? -quotient : quotient);
}

long long __moddi3(long long left, long long right)
{
    wide rest;
    divide(size_of(left), size_of(right), &rest);
    return (long long)(left < 0 ? -rest : rest);
}

/* 64-bit numbers by their words, for shifts and products that the compiler calls by name. */
union words {
    wide whole;
    struct {
        unsigned high, low;
    } part;
};

wide __ashldi3(wide value, int count)
{
    union words it = {value};
    if (!count)
        return value;
    it.part.high = count < 32 ? it.part.high << count | it.part.low >> (32 - count) : it.part.low << (count - 32);
    it.part.low = count < 32 ? it.part.low << count : 0;
    return it.whole;
}

wide __lshrdi3(wide value, int count)
{
    union words it = {value};
    if (!count)
        return value;
    it.part.low = count < 32 ? it.part.low >> count | it.part.high << (32 - count) : it.part.high >> (count - 32);
    it.part.high = count < 32 ? it.part.high >> count : 0;
    return it.whole;
}

long long __ashrdi3(long long value, int count)
{
    union words it = {(wide)value};
    unsigned sign = value < 0 ? ~0u : 0;
    if (!count)
        return value;
    if (count < 32) {
        it.part.low = it.part.low >> count | it.part.high << (32 - count);
        it.part.high = (unsigned)((int)it.part.high >> count);
    } else {
        it.part.low = (unsigned)((int)it.part.high >> (count - 32));
        it.part.high = sign;
    }
    return (long long)it.whole;
}

wide __muldi3(wide left, wide right)
{
    union words one = {left}, other = {right}, product;
    product.whole = (wide)one.part.low * other.part.low;
    product.part.high += one.part.high * other.part.low + one.part.low * other.part.high;
    return product.whole;
}

int __clzsi2(unsigned value)
{
    int count = 32;
    for (; value; value >>= 1)
        count--;
    return count;
}

int __ctzsi2(unsigned value)
{
    int count = 0;
    for (; !(value & 1); value >>= 1)
        count++;
    return count;
}

int __popcountsi2(unsigned value)
{
    int count = 0;
    for (; value; value &= value - 1)
        count++;
    return count;
}

unsigned __bswapsi2(unsigned value)
{
    return value << 24 | (value & 0xFF00) << 8 | (value >> 8 & 0xFF00) | value >> 24;
}

/* A number's digits, the last first; answers how many. */
static int digits_of(unsigned value, unsigned base, const char *digits, char *to)
{
    int count = 0;
    do {
        to[count++] = digits[value % base];
        value /= base;
    } while (value);
    return count;
}

static int fill_up(int width, int count, char filler)
{
    int put = 0;
    for (; count + put < width; put++)
        putchar(filler);
    return put;
}

struct field {
    int width;
    int is_left;
    char filler;
};

static int put_text(const char *text, struct field field)
{
    int count = (int)strlen(text), put = count;
    if (!field.is_left)
        put += fill_up(field.width, count, ' ');
    while (*text)
        putchar(*text++);
    return field.is_left ? put + fill_up(field.width, count, ' ') : put;
}

static int put_number(unsigned value, int is_negative, unsigned base, const char *digits, struct field field)
{
    char text[12];
    int count = digits_of(value, base, digits, text), put = count + is_negative;
    if (!field.is_left && field.filler == ' ')
        put += fill_up(field.width, count + is_negative, ' ');
    if (is_negative)
        putchar('-');
    if (!field.is_left && field.filler == '0')
        put += fill_up(field.width, count + is_negative, '0');
    while (count)
        putchar(text[--count]);
    return field.is_left ? put + fill_up(field.width, put, ' ') : put;
}

static struct field field_of(const char **format)
{
    struct field field = {0, 0, ' '};
    for (; **format == '0' || **format == '-'; ++*format)
        if (**format == '-')
            field.is_left = 1;
        else
            field.filler = '0';
    for (; **format >= '0' && **format <= '9'; ++*format)
        field.width = 10 * field.width + (**format - '0');
    while (**format == 'l')
        ++*format;
    return field;
}

int printf(const char *format, ...)
{
    static const char small[] = "0123456789abcdef", large[] = "0123456789ABCDEF";
    int put = 0;
    va_list rest;
    va_start(rest, format);
    for (; *format; format++) {
        if (*format != '%') {
            putchar(*format);
            put++;
            continue;
        }
        format++;
        struct field field = field_of(&format);
        char one[2] = {0, 0};
        if (*format == 'd' || *format == 'i') {
            int value = va_arg(rest, int);
            put += put_number(value < 0 ? -(unsigned)value : (unsigned)value, value < 0, 10, small, field);
        } else if (*format == 'u') {
            put += put_number(va_arg(rest, unsigned), 0, 10, small, field);
        } else if (*format == 'x' || *format == 'X') {
            put += put_number(va_arg(rest, unsigned), 0, 16, *format == 'x' ? small : large, field);
        } else if (*format == 'p') {
            put += put_text("0x", (struct field){0, 0, ' '}) + put_number(va_arg(rest, unsigned), 0, 16, small, field);
        } else if (*format == 's') {
            put += put_text(va_arg(rest, const char *), field);
        } else if (*format) {
            one[0] = *format == 'c' ? (char)va_arg(rest, int) : *format;
            put += put_text(one, field);
        } else {
            break;
        }
    }
    va_end(rest);
    return put;
}

static void put_text_alone(const char *text)
{
    while (*text)
        putchar(*text++);
}

static void put_hexadecimal(unsigned value, int digits)
{
    while (digits--)
        putchar("0123456789ABCDEF"[value >> 4 * digits & 15]);
}

/* Called for a trap without a handler. It does without printf, which few programs have. */
void unexpected_trap(struct trap *trap)
{
    put_text_alone("trap ");
    put_hexadecimal(trap->number, 2);
    put_text_alone(" at ");
    put_hexadecimal(trap->pc, 8);
    putchar('\n');
    exit(128 + (int)trap->number);
}
