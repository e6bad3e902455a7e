/* The machine of the workbench, for C programs: its devices, its traps, and its memory management unit. */
#ifndef SPARC8_H
#define SPARC8_H

/* The console, the timer and the pending interrupts. */
#define SPARC8_DEVICES 0x80000000u
#define SPARC8_CONSOLE_INPUT (*(volatile unsigned *)0x80000000u)
#define SPARC8_CONSOLE_WAITING (*(volatile unsigned *)0x80000004u)
#define SPARC8_CONSOLE_OUTPUT (*(volatile unsigned *)0x80000008u)
#define SPARC8_TIMER_COUNT (*(volatile unsigned *)0x80000010u)
#define SPARC8_TIMER_RELOAD (*(volatile unsigned *)0x80000014u)
#define SPARC8_PENDING (*(volatile unsigned *)0x8000001Cu)

/* The numbers of some traps. An interrupt of a level has the number 0x10 + level, `ta N` has 0x80 + N. */
enum sparc8_trap {
    SPARC8_INSTRUCTION_ACCESS = 0x01,
    SPARC8_ILLEGAL_INSTRUCTION = 0x02,
    SPARC8_PRIVILEGED_INSTRUCTION = 0x03,
    SPARC8_NOT_ALIGNED = 0x07,
    SPARC8_DATA_ACCESS = 0x09,
    SPARC8_TIMER_INTERRUPT = 0x1A,
    SPARC8_DIVISION_BY_ZERO = 0x2A,
    SPARC8_TRAP_INSTRUCTION = 0x80
};

/* What a handler gets, and may change: the program goes on at pc, then npc, with these registers. */
struct trap {
    unsigned number, psr, pc, npc, y;
    unsigned globals[7]; /* %g1 to %g7 */
    unsigned outs[8];    /* %o0 to %o7 of what trapped */
};

/* The handlers by the number of the trap; where none is set, the trap is told on the console and ends the program. */
extern void (*trap_handlers[256])(struct trap *);

/* Has the program go on behind the instruction that trapped. */
static inline void sparc8_pass_over(struct trap *trap)
{
    trap->pc = trap->npc;
    trap->npc += 4;
}

/* Lets interrupts above this level come: 0 lets all come, 15 all but level 15 wait. */
static inline void sparc8_set_level(unsigned level)
{
    unsigned psr;
    __asm__ volatile("rd %%psr, %0" : "=r"(psr));
    __asm__ volatile("mov %0, %%psr; nop; nop; nop" : : "r"((psr & ~0xF00u) | level << 8) : "memory");
}

/* The registers of the memory management unit: 0x000 control, 0x100 table of contexts, 0x200 context, 0x300 fault
   status, 0x400 its address. */
static inline unsigned sparc8_mmu_load(unsigned number)
{
    unsigned value;
    __asm__ volatile("lda [%1] 4, %0" : "=r"(value) : "r"(number) : "memory");
    return value;
}

static inline void sparc8_mmu_store(unsigned number, unsigned value)
{
    __asm__ volatile("sta %0, [%1] 4" : : "r"(value), "r"(number) : "memory");
}

#endif
