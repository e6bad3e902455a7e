/* Three sorts of the same numbers, which have to agree: quicksort, heapsort and a merge sort of a list. */
#include <stdio.h>

#define COUNT 200

struct item {
    struct item *next;
    unsigned key;
};

static unsigned numbers[COUNT], work[COUNT];
static struct item items[COUNT];
static unsigned seed = 2463534242u;

static unsigned next_random(void)
{
    seed ^= seed << 13;
    seed ^= seed >> 17;
    seed ^= seed << 5;
    return seed;
}

static void exchange(unsigned *one, unsigned *other)
{
    unsigned kept = *one;
    *one = *other;
    *other = kept;
}

static void quicksort(unsigned *first, unsigned *last)
{
    unsigned *low = first, *high = last, pivot = first[(last - first) / 2];
    while (low <= high) {
        while (*low < pivot)
            low++;
        while (*high > pivot)
            high--;
        if (low <= high)
            exchange(low++, high--);
    }
    if (first < high)
        quicksort(first, high);
    if (low < last)
        quicksort(low, last);
}

static void sift(unsigned *heap, int place, int count)
{
    for (int child; (child = 2 * place + 1) < count; place = child) {
        if (child + 1 < count && heap[child] < heap[child + 1])
            child++;
        if (heap[place] >= heap[child])
            return;
        exchange(&heap[place], &heap[child]);
    }
}

static void heapsort(unsigned *heap, int count)
{
    for (int place = count / 2; place--;)
        sift(heap, place, count);
    for (int last = count; --last > 0;) {
        exchange(&heap[0], &heap[last]);
        sift(heap, 0, last);
    }
}

static struct item *merge(struct item *one, struct item *other)
{
    struct item *first = 0, **end = &first;
    while (one && other) {
        struct item **lower = one->key <= other->key ? &one : &other;
        *end = *lower;
        end = &(*end)->next;
        *lower = *end;
    }
    *end = one ? one : other;
    return first;
}

static struct item *merge_sort(struct item *list)
{
    struct item *middle = list, *end = list;
    if (!list || !list->next)
        return list;
    while (end->next && end->next->next) {
        middle = middle->next;
        end = end->next->next;
    }
    struct item *behind = middle->next;
    middle->next = 0;
    return merge(merge_sort(list), merge_sort(behind));
}

static void put_hexadecimal(unsigned value)
{
    for (int shift = 28; shift >= 0; shift -= 4)
        putchar("0123456789abcdef"[value >> shift & 15]);
}

static void tell(const char *name, const unsigned *sorted)
{
    unsigned sum = 0, is_sorted = 1;
    for (int place = 0; place < COUNT; place++) {
        sum = (sum << 1 | sum >> 31) ^ sorted[place];
        if (place && sorted[place - 1] > sorted[place])
            is_sorted = 0;
    }
    while (*name)
        putchar(*name++);
    for (const unsigned *it = sorted; it < sorted + COUNT; it += COUNT / 4) {
        putchar(' ');
        put_hexadecimal(*it);
    }
    putchar(' ');
    put_hexadecimal(sum);
    puts(is_sorted ? " sorted" : " NOT sorted");
}

int main(void)
{
    for (int place = 0; place < COUNT; place++)
        numbers[place] = next_random();
    for (int place = 0; place < COUNT; place++)
        work[place] = numbers[place];
    quicksort(work, work + COUNT - 1);
    tell("quicksort ", work);
    for (int place = 0; place < COUNT; place++)
        work[place] = numbers[place];
    heapsort(work, COUNT);
    tell("heapsort  ", work);
    for (int place = 0; place < COUNT; place++) {
        items[place].key = numbers[place];
        items[place].next = place + 1 < COUNT ? &items[place + 1] : 0;
    }
    int place = 0;
    for (struct item *it = merge_sort(items); it; it = it->next)
        work[place++] = it->key;
    tell("merge sort", work);
    return 0;
}
