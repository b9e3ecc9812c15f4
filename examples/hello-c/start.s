| The vectors, the header and the way to main: initial values are copied into work RAM, and the rest is cleared.
        .section .head, "ax"
        .long   0x00fff000, start       | the stack pointer, the program counter
        .set    number, 2
        .rept   62                      | bus error to the last user's vector
        .if     number == 28
        .long   horizontal
        .elseif number == 30
        .long   vertical
        .else
        .long   shown + 4 * (number - 2)
        .endif
        .set    number, number + 1
        .endr
        .ascii  "SEGA MEGA DRIVE "
        .org    0x150
        .ascii  "HELLO IN C"
        .org    0x200
start:  moveq   #15,%d0
        and.b   0xa10001,%d0            | the version: 0 where the console locks nothing
        beq.s   1f
        move.l  #0x53454741,0xa14000    | "SEGA" unlocks the VDP and the sound generator
1:      lea     data_kept,%a0
        lea     data_begin,%a1
        bra.s   3f
2:      move.w  (%a0)+,(%a1)+
3:      cmp.l   #data_end,%a1
        blo.s   2b
        lea     bss_begin,%a1
        bra.s   5f
4:      clr.w   (%a1)+
5:      cmp.l   #bss_end,%a1
        blo.s   4b
        jsr     main
6:      bra.s   6b

| What a vector without a handler of its own comes to: `fault` of fault.c shows its number. Each of the 62 pushes
| where it stands; the stack begins anew, since it may be what was wrong.
shown:  .rept   62
        bsr.w   told
        .endr
told:   move.l  (%sp)+,%d0
        sub.l   #shown + 4 - 4 * 2,%d0
        lsr.l   #2,%d0
        move.w  #0x2700,%sr
        lea     0x00fff000,%sp
        move.l  %d0,-(%sp)
        jsr     fault

| A program that has a function of these names gets the VDP's interrupts: void __attribute__((interrupt_handler))
        .weak   horizontal, vertical
        .set    horizontal, shown + 4 * (28 - 2)
        .set    vertical, shown + 4 * (30 - 2)
