/* A tiny kernel: it sets up page tables, maps pages where they are first touched, takes interrupts of the timer, and answers a call. */
#include <sparc8.h>
#include <stdio.h>

enum { INVALID = 0, TABLE = 1, PAGE = 2 };
enum { READ_ONLY = 0 << 2, SUPERVISOR_ALL = 7 << 2, SUPERVISOR_WRITES = 5 << 2 };

#define PAGE_SIZE 4096u
#define WINDOW 0x40000000u /* where pages are mapped on demand */
#define FRAMES 4
#define TICKS 5
#define CALL_DOUBLE 0x10 /* ta 0x10 doubles %o0 */

/* Tables stand at multiples of their own size. */
static unsigned contexts[256] __attribute__((aligned(1024)));
static unsigned regions[256] __attribute__((aligned(1024)));
static unsigned segments[64] __attribute__((aligned(256)));
static unsigned demand_segments[64] __attribute__((aligned(256)));
static unsigned demand_pages[64] __attribute__((aligned(256)));
static unsigned char frames[FRAMES][PAGE_SIZE] __attribute__((aligned(4096)));

static volatile unsigned ticks, faults, refused;
static unsigned used_frames;

static unsigned table_entry(const void *table)
{
    return (unsigned)table >> 4 | TABLE;
}

static unsigned page_entry(unsigned physical, unsigned access)
{
    return physical >> 4 | access | PAGE;
}

/* An entry was changed: what was kept of the tables is forgotten. */
static void flush_all(void)
{
    __asm__ volatile("sta %%g0, [%0] 3" : : "r"(0x400) : "memory");
}

static void set_up_tables(void)
{
    contexts[0] = table_entry(regions);
    regions[0] = table_entry(segments);
    for (unsigned segment = 0; segment < 4; segment++)
        segments[segment] = page_entry(segment << 18, SUPERVISOR_ALL);
    regions[SPARC8_DEVICES >> 24] = page_entry(SPARC8_DEVICES, SUPERVISOR_WRITES);
    regions[WINDOW >> 24] = table_entry(demand_segments);
    demand_segments[0] = table_entry(demand_pages);
    sparc8_mmu_store(0x100, (unsigned)contexts >> 4);
    sparc8_mmu_store(0x200, 0);
    sparc8_mmu_store(0x000, 1);
}

/* Maps the page that was touched, and has the access tried again. A store that a page forbids is passed over. */
static void on_data_access(struct trap *trap)
{
    unsigned status = sparc8_mmu_load(0x300), address = sparc8_mmu_load(0x400), page = address - WINDOW >> 12;
    faults++;
    if ((status >> 2 & 7) == 1 && page < 64 && used_frames < FRAMES) {
        demand_pages[page] = page_entry((unsigned)frames[used_frames++], SUPERVISOR_WRITES);
        flush_all();
        return;
    }
    refused++;
    printf("refused: type %u at %08x\n", status >> 2 & 7, address);
    sparc8_pass_over(trap);
}

static void on_timer(struct trap *trap)
{
    (void)trap;
    SPARC8_PENDING = 1u << 10;
    if (++ticks == TICKS)
        SPARC8_TIMER_RELOAD = SPARC8_TIMER_COUNT = 0;
}

static void on_call(struct trap *trap)
{
    trap->outs[0] *= 2;
    sparc8_pass_over(trap);
}

static unsigned call_double(unsigned value)
{
    register unsigned out __asm__("o0") = value;
    __asm__ volatile("ta 0x10" : "+r"(out) : : "memory");
    return out;
}

/* Uses many windows, so that interrupts come at every depth. */
static unsigned fibonacci(unsigned n)
{
    return n < 2 ? n : fibonacci(n - 1) + fibonacci(n - 2);
}

int main(void)
{
    volatile unsigned *window = (volatile unsigned *)WINDOW;

    trap_handlers[SPARC8_DATA_ACCESS] = on_data_access;
    trap_handlers[SPARC8_TIMER_INTERRUPT] = on_timer;
    trap_handlers[SPARC8_TRAP_INSTRUCTION + CALL_DOUBLE] = on_call;
    set_up_tables();
    printf("translation is on: control %x\n", sparc8_mmu_load(0x000));

    for (unsigned page = 0; page < 3; page++)
        window[page * PAGE_SIZE / 4] = 0x11111111 * (page + 1);
    printf("3 pages: %08x %08x %08x, %u faults\n", window[0], window[PAGE_SIZE / 4], window[2 * PAGE_SIZE / 4], faults);
    printf("the same in their frames: %08x\n", *(volatile unsigned *)frames[1]);

    demand_pages[0] = (demand_pages[0] & ~0x1Cu) | READ_ONLY;
    flush_all();
    window[0] = 0;
    printf("a page that is read only keeps %08x, %u refused\n", window[0], refused);

    SPARC8_TIMER_RELOAD = 2000;
    SPARC8_TIMER_COUNT = 2000;
    sparc8_set_level(9);
    unsigned sum = 0;
    while (ticks < TICKS)
        sum = fibonacci(12);
    sparc8_set_level(15);
    printf("%u ticks, fibonacci(12) is %u\n", ticks, sum);
    printf("a call of the system doubles 21 to %u\n", call_double(21));
    return 0;
}
