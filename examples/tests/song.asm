; A song for the FM chip: the voice is set once, then each vertical interrupt counts frames, and each twentieth
; begins a note. Each fifth one strikes the sound generator's noise. A colour follows the notes.
    org $0
    dc.w $00ff,$f000                 ; supervisor stack pointer
    dc.w $0000,$0200                 ; start of the program
    org $78
    dc.w $0000,$0300                 ; level 6: the vertical interrupt
    org $100
    dc.w $5345,$4741                 ; "SEGA"
    org $200
    lea $00c00004.l,a4               ; the VDP's control port
    lea $00c00000.l,a3               ; its data port
    lea $00c00011.l,a5               ; the sound generator's port
    lea $00a11100.l,a1               ; the request for the Z80's bus
    lea $00a11200.l,a2               ; its reset
    move.w #$0100,(a1)
    move.w #$0100,(a2)
grant:
    btst #$00,(a1)
    bne.b grant
    lea $00a04000.l,a0               ; the FM chip
    lea voice.l,a6
    moveq #$21,d0                    ; 34 registers
setting:
    move.b (a6)+,(a0)
    move.b (a6)+,$0001(a0)
    dbf d0,setting
    move.w #$0000,(a1)
    move.b #$9f,(a5)
    move.b #$bf,(a5)
    move.b #$df,(a5)
    move.b #$e5,(a5)                 ; white noise
    move.w #$8004,(a4)
    move.w #$8164,(a4)               ; the display and the vertical interrupt
    move.w #$8f02,(a4)
    move #$2300,sr
waiting:
    bra.b waiting
    org $300
    addq.w #$1,d7
    addq.w #$1,d6
    cmpi.w #$0005,d6
    bne.b quiet
    moveq #$00,d6
    move.b #$f4,(a5)                 ; the noise's volume
    bra.b struck
quiet:
    move.b #$ff,(a5)
struck:
    cmpi.w #$0014,d7
    bne.b ended
    moveq #$00,d7
    move.w #$0100,(a1)
again:
    btst #$00,(a1)
    bne.b again
    lea notes.l,a6
    move.w d5,d4
    andi.w #$0007,d4
    addq.w #$1,d5
    add.w d4,d4
    move.b #$28,(a0)                 ; the key up
    move.b #$00,$0001(a0)
    move.b #$a4,(a0)
    move.b $00(a6,d4.w),$0001(a0)
    move.b #$a0,(a0)
    move.b $01(a6,d4.w),$0001(a0)
    move.b #$28,(a0)                 ; and down
    move.b #$f0,$0001(a0)
    move.w #$0000,(a1)
    move.l #$c0000000,(a4)
    move.w d5,d4
    andi.w #$0007,d4
    add.w d4,d4
    move.w d4,(a3)
ended:
    rte
notes:
    dc.w $2284,$22d3,$232b,$235b,$23c5,$243b,$24bf,$2a84
; registers and bytes of channel 1: one operator is heard, and one an octave above bends it
voice:
    dc.w $2200,$2700,$2b00,$2800
    dc.w $3001,$3402,$3801,$3c01
    dc.w $407f,$4424,$487f,$4c08
    dc.w $501f,$541f,$581f,$5c1f
    dc.w $6000,$640a,$6800,$6c04
    dc.w $7000,$7400,$7800,$7c00
    dc.w $802f,$840f,$880f,$8c2f
    dc.w $9000,$9400,$9800,$9c00
    dc.w $b004,$b4c0
