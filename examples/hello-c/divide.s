| What the compiler calls for 32 bits, since the 68000 multiplies and divides by 16 alone: numbers come on the stack,
| the result goes in D0. A division by 0 takes vector 5, as DIVU does.
        .globl  __mulsi3, __udivsi3, __umodsi3, __divsi3, __modsi3
        .text
| The low 32 bits of a product: the product of the low halves, and those of a low and a high one above it.
__mulsi3:
        move.w  4(%sp),%d0
        mulu    10(%sp),%d0
        move.w  6(%sp),%d1
        mulu    8(%sp),%d1
        add.w   %d1,%d0
        swap    %d0
        clr.w   %d0
        move.w  6(%sp),%d1
        mulu    10(%sp),%d1
        add.l   %d1,%d0
        rts
__udivsi3:
        movem.l 4(%sp),%d0-%d1
        bra.s   parted
__umodsi3:
        movem.l 4(%sp),%d0-%d1
        bsr.s   parted
        move.l  %d1,%d0
        rts
| The quotient has the sign of both numbers' product, and the rest that of the dividend.
__divsi3:
        bsr.s   sizes
        bsr.s   parted
        tst.b   4(%sp)
        bpl.s   1f
        neg.l   %d0
1:      tst.b   8(%sp)
        bpl.s   2f
        neg.l   %d0
2:      rts
__modsi3:
        bsr.s   sizes
        bsr.s   parted
        move.l  %d1,%d0
        tst.b   4(%sp)
        bpl.s   1f
        neg.l   %d0
1:      rts
| Both numbers of the caller's caller without their signs.
sizes:  movem.l 8(%sp),%d0-%d1
        tst.l   %d0
        bpl.s   1f
        neg.l   %d0
1:      tst.l   %d1
        bpl.s   2f
        neg.l   %d1
2:      rts
| The quotient of D0 by D1 in D0 and the rest in D1, without signs.
parted: movem.l %d2-%d4,-(%sp)
        move.l  %d0,%d2
        cmp.l   #0x10000,%d1
        bhs.s   wide
| By 16 bits as on paper: the high half, then the low half behind its rest.
        clr.w   %d2
        swap    %d2
        divu    %d1,%d2
        move.w  %d2,%d3
        move.w  %d0,%d2
        divu    %d1,%d2
        move.w  %d3,%d0
        swap    %d0
        move.w  %d2,%d0
        clr.w   %d2
        swap    %d2
        move.l  %d2,%d1
        bra.s   2f
| By more: both shifted until the divisor has 16 bits, which gives the quotient or one more than it.
wide:   move.l  %d1,%d3
1:      lsr.l   #1,%d2
        lsr.l   #1,%d3
        cmp.l   #0x10000,%d3
        bhs.s   1b
        divu    %d3,%d2
        and.l   #0xffff,%d2
| The product by the whole divisor: that of its upper half has at most 16 bits, the sum 33. Where it is above the
| dividend the quotient is one less, and so is one divisor's share of it.
        move.w  %d1,%d3
        mulu    %d2,%d3
        move.l  %d1,%d4
        swap    %d4
        mulu    %d2,%d4
        swap    %d4
        add.l   %d3,%d4
        bcs.s   3f
        cmp.l   %d4,%d0
        bhs.s   4f
3:      sub.l   %d1,%d4
        subq.l  #1,%d2
4:      sub.l   %d4,%d0
        move.l  %d0,%d1
        move.l  %d2,%d0
2:      movem.l (%sp)+,%d2-%d4
        rts
