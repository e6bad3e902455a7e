! The start of a C program: the trap table at 0, the stack, the handlers of window traps, and the end.
!
! It serves machines of 4 windows and more: a handler needs one of its own between the two that it moves.

#define PSR_ET 0x20             /* traps are on */
#define PSR_PIL 0xf00           /* the level up to which interrupts wait */
#define CONSOLE 0x80000008
#define FRAME 96                /* the least frame: 16 registers, a result's address, 6 arguments, a multiple of 8 */
#define STATE 80                /* struct trap of sparc8.h */

    .macro trap to
    ba      \to
    rd      %psr, %l0
    nop
    nop
    .endm

    ! The sixteen registers that a window has for itself go to its stack.
    .macro spill
    std     %l0, [%sp]
    std     %l2, [%sp + 8]
    std     %l4, [%sp + 16]
    std     %l6, [%sp + 24]
    std     %i0, [%sp + 32]
    std     %i2, [%sp + 40]
    std     %i4, [%sp + 48]
    std     %i6, [%sp + 56]
    .endm

    ! They come from there.
    .macro fill
    ldd     [%sp], %l0
    ldd     [%sp + 8], %l2
    ldd     [%sp + 16], %l4
    ldd     [%sp + 24], %l6
    ldd     [%sp + 32], %i0
    ldd     [%sp + 40], %i2
    ldd     [%sp + 48], %i4
    ldd     [%sp + 56], %i6
    .endm

    .section .traps, "ax"
    .global _start
_start:
    ba      start                       ! 00: the machine begins here
    nop
    nop
    nop
    .rept   4                           ! 01 to 04
    trap    any_trap
    .endr
    trap    window_overflow             ! 05
    trap    window_underflow            ! 06
    .rept   0x2a - 0x06                 ! 07 to 2a: the other exceptions, and the interrupts
    trap    any_trap
    .endr
    .skip   16 * (0x80 - 0x2b)          ! no trap of the machine has these numbers
    .rept   0x80                        ! 80 to ff: the trap instructions
    trap    any_trap
    .endr

    .text
start:
    mov     -1, %wim                    ! the bits of windows that are not there read 0
    nop; nop; nop
    rd      %wim, %g1
    clr     %g2
1:  srl     %g1, 1, %g1
    tst     %g1
    bne,a   1b
     inc    %g2
    cmp     %g2, 3
    bl      too_few_windows
     sethi  %hi(last_window), %g1
    st      %g2, [%g1 + %lo(last_window)]
    mov     2, %wim                     ! the program begins in window 0, so window 1 is the last that is free
    set     _start, %g1
    mov     %g1, %tbr
    set     PSR_PIL | 0x80 | PSR_ET, %g1
    mov     %g1, %psr                   ! supervisor mode, traps on, interrupts up to level 14 off
    nop; nop; nop
    set     _stack_end - FRAME, %sp
    clr     %fp
    call    main
     clr    %o0                         ! no arguments
    ! What main returns is the status.

    .global exit, _halt
exit:                                   ! void exit(int status)
    rd      %psr, %g1
    andn    %g1, PSR_ET, %g1
    mov     %g1, %psr
    nop; nop; nop
_halt:
    ta      0                           ! with traps off: the machine stops here, with the status in %o0
    ba      _halt
     nop

too_few_windows:                        ! this is told on the console, with status 1
    set     CONSOLE, %g1
    set     windows_text, %g2
    ldub    [%g2], %g3
1:  st      %g3, [%g1]
    inc     %g2
    ldub    [%g2], %g3
    tst     %g3
    bne     1b
     nop
    ba      _halt
     mov    1, %o0

    ! A save into the window that is marked: the oldest window goes to its stack, and is the marked one from now on.
window_overflow:
    mov     %g1, %l7
    rd      %wim, %l3
    sethi   %hi(last_window), %l4
    ld      [%l4 + %lo(last_window)], %l4
    sll     %l3, %l4, %l4
    srl     %l3, 1, %g1
    or      %g1, %l4, %g1
    save                                ! to the oldest window
    mov     %g1, %wim
    nop; nop; nop
    spill
    restore
    mov     %l7, %g1
    jmp     %l1
     rett   %l2

    ! A restore to the window that is marked: it comes from its stack, and the one behind it is the marked one from now
    ! on.
window_underflow:
    rd      %wim, %l3
    sethi   %hi(last_window), %l4
    ld      [%l4 + %lo(last_window)], %l4
    srl     %l3, %l4, %l4
    sll     %l3, 1, %l3
    or      %l3, %l4, %l3
    mov     %l3, %wim
    nop; nop; nop
    restore                             ! to the window of the program
    restore                             ! to the marked one
    fill
    save
    save
    jmp     %l1
     rett   %l2

    ! Any other trap: a handler in C is called, with traps on and interrupts up to level 14 off.
any_trap:
    mov     %g1, %l5
    mov     %g2, %l6
    ! Where this window is the marked one, the oldest goes to its stack first.
    rd      %wim, %l3
    srl     %l3, %l0, %l4               ! by the number of this window
    btst    1, %l4
    be      1f
     sethi  %hi(last_window), %l4
    ld      [%l4 + %lo(last_window)], %l4
    sll     %l3, %l4, %l4
    srl     %l3, 1, %g1
    or      %g1, %l4, %g1
    save
    mov     %g1, %wim
    nop; nop; nop
    spill
    restore
1:  sub     %fp, FRAME + STATE, %sp
    ! struct trap
    rd      %tbr, %l3
    srl     %l3, 4, %l3
    and     %l3, 0xff, %l3
    st      %l3, [%sp + FRAME]
    st      %l0, [%sp + FRAME + 4]
    st      %l1, [%sp + FRAME + 8]
    st      %l2, [%sp + FRAME + 12]
    rd      %y, %l4
    st      %l4, [%sp + FRAME + 16]
    st      %l5, [%sp + FRAME + 20]     ! %g1
    st      %l6, [%sp + FRAME + 24]
    st      %g3, [%sp + FRAME + 28]
    st      %g4, [%sp + FRAME + 32]
    st      %g5, [%sp + FRAME + 36]
    st      %g6, [%sp + FRAME + 40]
    st      %g7, [%sp + FRAME + 44]
    std     %i0, [%sp + FRAME + 48]
    std     %i2, [%sp + FRAME + 56]
    std     %i4, [%sp + FRAME + 64]
    std     %i6, [%sp + FRAME + 72]
    or      %l0, PSR_PIL, %l4
    wr      %l4, PSR_ET, %psr
    nop; nop; nop
    sll     %l3, 2, %l3
    sethi   %hi(trap_handlers), %l4
    or      %l4, %lo(trap_handlers), %l4
    ld      [%l4 + %l3], %l4
    tst     %l4
    bne     1f
     nop
    set     unexpected_trap, %l4
1:  call    %l4
     add    %sp, FRAME, %o0
    mov     %l0, %psr                   ! traps off, in this window
    nop; nop; nop
    ! Where the window to return to is the marked one, it comes from its stack first.
    rd      %wim, %l3
    sethi   %hi(last_window), %l4
    ld      [%l4 + %lo(last_window)], %l4
    srl     %l3, %l0, %l5
    srl     %l5, 1, %l5                 ! bit 0: the mark of the window above, but for the last window
    and     %l0, 0x1f, %l6
    cmp     %l6, %l4
    be,a    1f
     mov    %l3, %l5                    ! above the last one is window 0
1:  btst    1, %l5
    be      1f
     srl    %l3, %l4, %l4
    sll     %l3, 1, %l3
    or      %l3, %l4, %l3
    mov     %l3, %wim
    nop; nop; nop
    restore
    fill
    save
1:  ld      [%sp + FRAME + 4], %l0
    ld      [%sp + FRAME + 8], %l1
    ld      [%sp + FRAME + 12], %l2
    ld      [%sp + FRAME + 16], %l4
    mov     %l4, %y
    ld      [%sp + FRAME + 20], %g1
    ld      [%sp + FRAME + 24], %g2
    ld      [%sp + FRAME + 28], %g3
    ld      [%sp + FRAME + 32], %g4
    ld      [%sp + FRAME + 36], %g5
    ld      [%sp + FRAME + 40], %g6
    ld      [%sp + FRAME + 44], %g7
    ldd     [%sp + FRAME + 48], %i0
    ldd     [%sp + FRAME + 56], %i2
    ldd     [%sp + FRAME + 64], %i4
    ldd     [%sp + FRAME + 72], %i6
    mov     %l0, %psr
    nop; nop; nop
    jmp     %l1
     rett   %l2

    .section .rodata
windows_text:
    .asciz  "this program needs 4 register windows\n"

    .section .bss
    .align  4
last_window:                            ! the number of the last window
    .skip   4
    .global trap_handlers
trap_handlers:                          ! the handlers of sparc8.h, by the number of the trap
    .skip   4 * 256
