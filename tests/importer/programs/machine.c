/* An interpreter of a small machine: a table of switch, and one of names. */
#include <stdio.h>

enum code { PUSH, ADD, SUB, MUL, DUP, SWAP, DROP, OVER, JUMP_IF, PRINT, LESS, HALT };

static const char *const names[] = {
    "push", "add", "sub", "mul", "dup", "swap", "drop", "over", "jump-if", "print", "less", "halt",
};

static const int program[] = {
    PUSH, 1, PUSH, 1,                                  /* product, counter */
    DUP, PRINT, SWAP, OVER, MUL, DUP, PRINT, SWAP,     /* product times counter */
    PUSH, 1, ADD, DUP, PUSH, 8, LESS, JUMP_IF, 4,
    DROP, PUSH, 100, SUB, PRINT, HALT};

int main(void)
{
    int stack[16], top = 0, at = 0, counts[HALT + 1] = {0};
    for (;;) {
        int code = program[at++];
        counts[code]++;
        switch (code) {
        case PUSH: stack[top++] = program[at++]; break;
        case ADD: top--; stack[top - 1] += stack[top]; break;
        case SUB: top--; stack[top - 1] -= stack[top]; break;
        case MUL: top--; stack[top - 1] *= stack[top]; break;
        case DUP: stack[top] = stack[top - 1]; top++; break;
        case SWAP: { int kept = stack[top - 1]; stack[top - 1] = stack[top - 2]; stack[top - 2] = kept; break; }
        case DROP: top--; break;
        case OVER: stack[top] = stack[top - 2]; top++; break;
        case JUMP_IF: at = stack[--top] ? program[at] : at + 1; break;
        case PRINT: printf("%d ", stack[--top]); break;
        case LESS: top--; stack[top - 1] = stack[top - 1] < stack[top]; break;
        case HALT:
            putchar('\n');
            for (int i = 0; i <= HALT; i++)
                printf("%s %d\n", names[i], counts[i]);
            return 0;
        }
    }
}
