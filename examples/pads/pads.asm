; Pad 1, of three buttons or of six, read once a frame by the usual sequence: a row of twelve squares, which
; are light while a button is pressed, from Up, Down, Left, Right, B, C, A and Start to Z, Y, X and Mode, and
; a note for the leftmost that is.
    org $0
    dc.w $00ff,$f000                 ; supervisor stack pointer
    dc.w $0000,$0200                 ; start of the program
    org $100
    dc.w $5345,$4741                 ; "SEGA"
    org $200
    move.b $00a10001.l,d0            ; the version
    andi.b #$0f,d0                   ; 0 where the console locks nothing
    beq.b unlocked
    move.l #$53454741,$00a14000.l    ; unlock the VDP and the sound generator
unlocked:
    lea $00a10003.l,a1               ; the data of pad 1's port
    lea $00c00000.l,a3               ; the VDP's data port
    lea $00c00004.l,a4               ; its control port
    lea $00c00011.l,a5               ; the sound generator's port
    move.b #$40,(a1)                 ; TH is 1
    move.b #$40,$00a10009.l          ; and an output
    move.b #$9f,(a5)                 ; all channels, silent
    move.b #$bf,(a5)
    move.b #$df,(a5)
    move.b #$ff,(a5)
    tst.w (a4)                       ; no control word waits
    lea registers.l,a0
    moveq #$0e,d0                    ; 15 registers
set:
    move.w (a0)+,(a4)
    dbf d0,set
    move.l #$c0020000,(a4)           ; write colours 1 and 2
    move.w #$0444,(a3)               ; dark
    move.w #$00e0,(a3)               ; light
    move.l #$40200000,(a4)           ; write patterns 1 and 2
    moveq #$0f,d0
dark:
    move.w #$1111,(a3)
    dbf d0,dark
    moveq #$0f,d0
light:
    move.w #$2222,(a3)
    dbf d0,light
; each frame
frame:
    move.w (a4),d0                   ; the end of the vertical blank
    btst #$3,d0
    bne.b frame
blank:
    move.w (a4),d0                   ; its begin
    btst #$3,d0
    beq.b blank
    move.b #$40,(a1)
    move.b (a1),d0                   ; C, B, Right, Left, Down, Up
    move.b #$00,(a1)                 ; TH falls for the first time
    move.b (a1),d1                   ; Start, A
    move.b #$40,(a1)
    move.b #$00,(a1)                 ; for the second
    move.b #$40,(a1)
    move.b #$00,(a1)                 ; for the third
    move.b (a1),d2                   ; four times 0 on a pad of six buttons
    move.b #$40,(a1)
    move.b (a1),d3                   ; Mode, X, Y, Z
    move.b #$00,(a1)                 ; for the fourth
    move.b #$40,(a1)
    not.b d0                         ; 1 while a button is pressed
    andi.w #$003f,d0
    not.b d1
    andi.w #$0030,d1
    lsl.w #$2,d1
    or.w d1,d0
    andi.b #$0f,d2
    bne.b three
    not.b d3
    andi.w #$000f,d3
    lsl.w #$8,d3
    or.w d3,d0
three:
    move.w d0,d7
    move.l #$46840003,d5             ; row 13, column 2 of plane A at $c000
    moveq #$0b,d4                    ; twelve squares
square:
    moveq #$01,d6
    lsr.w #$1,d7
    bcc.b draw
    moveq #$02,d6
draw:
    move.l d5,(a4)
    move.w d6,(a3)
    move.w d6,(a3)
    addi.l #$00800000,d5             ; the row below
    move.l d5,(a4)
    move.w d6,(a3)
    move.w d6,(a3)
    subi.l #$007a0000,d5             ; three columns on
    dbf d4,square
    lea notes.l,a0
note:
    tst.w d0
    beq.b silent
    lsr.w #$1,d0
    bcs.b play
    addq.l #$2,a0
    bra.b note
play:
    move.b (a0)+,(a5)                ; channel 0, low four bits of the period
    move.b (a0)+,(a5)                ; high six bits
    move.b #$90,(a5)                 ; full volume
    bra.w frame
silent:
    move.b #$9f,(a5)
    bra.w frame
; display of 224 lines and 40 cells, plane A at $c000, plane B at $e000, sprites at $f800, scrolling at $fc00
registers:
    dc.w $8004,$8144,$8230,$8407,$857c,$8700,$8a00,$8b00,$8c81,$8d3f,$8f02,$9001,$9100,$9200,$833c
; twelve half tones from C on: how many of 223,721 in a second half a wave has
notes:
    dc.w $8b1a,$8419,$8d17,$8816,$8315,$8014,$8e12,$8d11,$8d10,$8e0f,$800f,$820e
