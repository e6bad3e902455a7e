/* The sum of a list, by recursion. */
#include <stdio.h>

struct node {
    int value;
    struct node *next;
};

static int sum(const struct node *list)
{
    if (!list)
        return 0;
    int rest = sum(list->next);
    return list->value + rest;
}

int main(void)
{
    struct node nodes[5];
    for (int i = 0; i < 5; i++) {
        nodes[i].value = 10 * i;
        nodes[i].next = i < 4 ? &nodes[i + 1] : 0;
    }
    int total = sum(nodes);
    printf("%d\n", total);
    return total != 100;
}
