/* A list in static memory, with pointers in tables of data. */
#include <stdio.h>

struct node {
    int key;
    struct node *next;
};

static struct node c = {3, 0}, b = {2, &c}, a = {1, &b};
static struct node *heads[] = {&a, &b, &c, 0};
static int *const keys[] = {&c.key, &a.key, &b.key};

static struct node *reverse(struct node *list)
{
    struct node *done = 0;
    while (list) {
        struct node *rest = list->next;
        list->next = done;
        done = list;
        list = rest;
    }
    return done;
}

int main(void)
{
    for (struct node **head = heads; *head; head++)
        for (struct node *it = *head; it; it = it->next)
            printf("%d%c", it->key, it->next ? ' ' : '\n');
    for (struct node *it = reverse(&a); it; it = it->next)
        printf("%d%c", it->key, it->next ? ' ' : '\n');
    for (unsigned i = 0; i < 3; i++)
        *keys[i] *= 10;
    printf("%d %d %d\n", a.key, b.key, c.key);
    return 0;
}
