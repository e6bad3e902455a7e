/* Texts: reversed, compared, searched, with characters that need care. */
#include <stdio.h>
#include <string.h>

static const char *const texts[] = {"level", "workbench", "tab\there", "quote \"x\" and \\", "", "! no remark", "100%"};

static void reverse(char *text)
{
    for (char *end = text + strlen(text); text + 1 < end;) {
        char kept = *--end;
        *end = *text;
        *text++ = kept;
    }
}

int main(void)
{
    char line[40];
    for (unsigned i = 0; i < sizeof texts / sizeof *texts; i++) {
        strcpy(line, texts[i]);
        reverse(line);
        printf("[%s] %u %s\n", line, (unsigned)strlen(line), strcmp(line, texts[i]) ? "other" : "same");
    }
    printf("%-8s|%8s|%c|%05d|%-5d|%%\n", "left", "right", 'x', -42, 7);
    return 0;
}
