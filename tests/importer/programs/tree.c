/* A binary tree, walked in order. */
#include <stdio.h>

struct node {
    unsigned key;
    struct node *left, *right;
};

static struct node nodes[64];
static unsigned used;

static void insert(struct node **place, unsigned key)
{
    while (*place)
        place = key < (*place)->key ? &(*place)->left : &(*place)->right;
    *place = &nodes[used++];
    (*place)->key = key;
}

static unsigned height(const struct node *tree)
{
    unsigned left, right;
    if (!tree)
        return 0;
    left = height(tree->left);
    right = height(tree->right);
    return 1 + (left > right ? left : right);
}

static void walk(const struct node *tree)
{
    if (tree) {
        walk(tree->left);
        printf("%u ", tree->key);
        walk(tree->right);
    }
}

int main(void)
{
    struct node *root = 0;
    for (unsigned key = 17; used < 40; key = (key * 61 + 7) % 251)
        insert(&root, key);
    walk(root);
    printf("\nheight %u\n", height(root));
    return 0;
}
