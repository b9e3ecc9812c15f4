; Makes 64 numbers, sorts them in work RAM, and plays them in their order on the first channel of
; the sound generator, 21 milliseconds each.
    org $0
    dc.w $00ff,$f000                 ; supervisor stack pointer
    dc.w $0000,$0200                 ; start of the program
    org $100
    dc.w $5345,$4741                 ; "SEGA"
    org $200
    move.b $00a10001.l,d0            ; the version
    andi.b #$0f,d0                   ; 0 where the console locks nothing
    beq.b at_216
    move.l #$53454741,$00a14000.l    ; unlock the VDP and the sound generator
at_216:
    lea $00ff0000.l,a0               ; the numbers
    moveq #$01,d0
    move.w #$003f,d1
at_222:
    mulu #$000b,d0                   ; a number is the last one, times 11 modulo 1,009
    divu #$03f1,d0
    clr.w d0
    swap d0
    move.w d0,(a0)+
    dbf d1,at_222
    bsr.w at_23e                     ; sort
    bsr.w at_26e                     ; play
at_23c:
    bra.b at_23c
; sort: 63 passes, the first over 63 pairs of neighbours and each further one over one less
at_23e:
    movem.l d0/d1/d2/d3/a0/a1,-(a7)
    move.w #$003e,d2
at_246:
    lea $00ff0000.l,a0
    move.w d2,d3
at_24e:
    move.w (a0),d0
    move.w $0002(a0),d1
    cmp.w d0,d1
    bcc.b at_25e
    move.w d1,(a0)                   ; the smaller one first
    move.w d0,$0002(a0)
at_25e:
    addq.w #$2,a0
    dbf d3,at_24e
    dbf d2,at_246
    movem.l (a7)+,d0/d1/d2/d3/a0/a1
    rts
; play: a number is half a wave's ticks
at_26e:
    lea $00ff0000.l,a0
    lea $00c00011.l,a1               ; the sound generator's port
    move.b #$90,(a1)                 ; channel 0, full volume
    move.b #$bf,(a1)                 ; the others, silent
    move.b #$df,(a1)
    move.b #$ff,(a1)
    move.w #$003f,d2
at_28e:
    move.w (a0)+,d0
    move.w d0,d1
    andi.b #$0f,d1                   ; low four bits of the period
    ori.b #$80,d1
    move.b d1,(a1)
    lsr.w #$4,d0                     ; high six bits
    move.b d0,(a1)
    move.w #$3fff,d3
at_2a4:
    dbf d3,at_2a4
    dbf d2,at_28e
    move.b #$9f,(a1)                 ; channel 0, no volume
    rts
