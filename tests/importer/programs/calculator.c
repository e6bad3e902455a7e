/* Reads sums by descent. */
#include <stdio.h>

static const char *here;

static int sum(void);

static int factor(void)
{
    int value = 0;
    if (*here == '-') {
        here++;
        return -factor();
    }
    if (*here == '(') {
        here++;
        value = sum();
        here++;
        return value;
    }
    while (*here >= '0' && *here <= '9')
        value = 10 * value + *here++ - '0';
    return value;
}

static int product(void)
{
    int value = factor();
    for (;;)
        switch (*here) {
        case '*': here++; value *= factor(); break;
        case '/': here++; value /= factor(); break;
        case '%': here++; value %= factor(); break;
        default: return value;
        }
}

static int sum(void)
{
    int value = product();
    while (*here == '+' || *here == '-')
        value = *here++ == '+' ? value + product() : value - product();
    return value;
}

int main(void)
{
    static const char *const lines[] = {
        "1+2*3", "(1+2)*3", "-7/2", "-7%3", "2*(3+4*(5-6))-(-1)", "100000*30000/7", "((((9))))",
    };
    for (unsigned i = 0; i < sizeof lines / sizeof *lines; i++) {
        here = lines[i];
        printf("%s = %d\n", lines[i], sum());
    }
    return 0;
}
