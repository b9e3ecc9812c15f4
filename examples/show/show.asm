; Two planes that scroll against each other, a window, 40 sprites of which ten lighten or darken what is
; behind them, and a tune. Where plane A has no dots with priority all is in shadow.
    org $0
    dc.w $00ff,$f000                 ; supervisor stack pointer
    dc.w $0000,$0200                 ; start of the program
    org $100
    dc.w $5345,$4741                 ; "SEGA"
    org $200
    move.b $00a10001.l,d0            ; the version
    andi.b #$0f,d0                   ; 0 where the console locks nothing
    beq.b at_216
    move.l #$53454741,$00a14000.l    ; unlock the VDP and the sound generator
at_216:
    lea $00c00000.l,a3               ; the VDP's data port
    lea $0004(a3),a4                 ; its control port
    lea $00c00011.l,a5               ; the sound generator's port
    lea $00ff0000.l,a6               ; 40 sprites in work RAM, and a count of frames
    tst.w (a4)                       ; no control word waits
    clr.w $0200(a6)
    move.b #$9f,(a5)                 ; all channels, silent
    move.b #$bf,(a5)
    move.b #$df,(a5)
    move.b #$ff,(a5)
    lea $00000400.l,a0               ; the tables
    moveq #$12,d0                    ; 19 registers
at_24a:
    move.w (a0)+,(a4)
    dbf d0,at_24a
    move.l #$c0000000,(a4)           ; write colours
    moveq #$3f,d0
at_258:
    move.w (a0)+,(a3)
    dbf d0,at_258
    move.l #$40000000,(a4)           ; write patterns from 0 on
    move.w #$007f,d0                 ; eight of 16 words
at_268:
    move.w (a0)+,(a3)
    dbf d0,at_268
    move.l #$60000003,(a4)           ; plane B at $e000
    move.w #$07ff,d0                 ; 64 by 32 cells
at_278:
    move.w d0,d1                     ; squares of four cells in two palettes
    move.w d0,d2
    lsr.w #$2,d1
    lsr.w #$8,d2
    eor.w d1,d2
    andi.w #$0001,d2
    moveq #$0d,d3
    lsl.w d3,d2
    addq.w #$1,d2                    ; pattern 1
    move.w d2,(a3)
    dbf d0,at_278
    move.l #$40000003,(a4)           ; plane A at $c000
    move.w #$07ff,d0
at_29c:
    move.w d0,d1                     ; diagonals, between which it is clear
    move.w d0,d2
    lsr.w #$1,d1
    lsr.w #$7,d2
    eor.w d1,d2
    andi.w #$0003,d2
    beq.b at_2b0
    moveq #$00,d2
    bra.b at_2b4
at_2b0:
    move.w #$c002,d2                 ; pattern 2 in palette 2, with priority
at_2b4:
    move.w d2,(a3)
    dbf d0,at_29c
    move.l #$70000003,(a4)           ; the window at $f000
    move.w #$00bf,d0                 ; three rows of 64 cells
at_2c4:
    move.w #$e003,(a3)               ; pattern 3 in palette 3, with priority
    dbf d0,at_2c4
    movea.l a6,a0
    moveq #$00,d0                    ; the sprites' number
at_2d0:
    move.w d0,d1                     ; Y: five lines lower each
    mulu #$0005,d1
    addi.w #$0080,d1
    move.w d1,(a0)+
    move.w d0,d1                     ; two by two cells, and the link
    addq.w #$1,d1
    cmpi.w #$0028,d1
    bne.b at_2e8
    moveq #$00,d1                    ; the last one ends the list
at_2e8:
    ori.w #$0500,d1
    move.w d1,(a0)+
    move.w d0,d1                     ; each palette in turn, pattern 4, with priority
    andi.w #$0003,d1
    moveq #$0d,d2
    lsl.w d2,d1
    addi.w #$8004,d1
    move.w d1,(a0)+
    move.w d0,d1                     ; X: 24 dots further each, and never 0
    mulu #$0018,d1
    addi.w #$0081,d1
    move.w d1,(a0)+
    addq.w #$1,d0
    cmpi.w #$0028,d0
    bne.b at_2d0
; wait for line 224
at_312:
    cmpi.b #$e0,$0004(a4)            ; the counter of lines
    bne.b at_312
    move.w #$8174,(a4)               ; the display is on
at_31e:
    move.w (a4),d0                   ; wait for the picture
    btst #$03,d0
    bne.b at_31e
at_326:
    move.w (a4),d0                   ; wait for its end
    btst #$03,d0
    beq.b at_326
    addq.w #$1,$0200(a6)             ; a frame more
    move.w $0200(a6),d7
    move.l #$5c000003,(a4)           ; the scroll table at $dc00
    move.w d7,(a3)                   ; plane A a dot to the right
    move.w d7,d1
    lsr.w #$1,d1
    neg.w d1
    move.w d1,(a3)                   ; plane B half a dot to the left
    move.l #$40000010,(a4)           ; the vertical scroll
    move.w d1,(a3)                   ; plane A half a line down
    move.w d7,(a3)                   ; plane B a line up
    movea.l a6,a0
    moveq #$27,d0
at_354:
    move.w d0,d1                     ; 2, 4, 6 or 8 dots to the right
    andi.w #$0006,d1
    addq.w #$2,d1
    add.w d1,$0006(a0)
    addq.w #$1,(a0)                  ; a line down
    lea $0008(a0),a0
    dbf d0,at_354
    move.w #$93a0,(a4)               ; a transfer of 160 words
    move.w #$9400,(a4)
    move.w #$9500,(a4)               ; from $ff0000
    move.w #$9680,(a4)
    move.w #$977f,(a4)
    move.l #$58000083,(a4)           ; to the sprites at $d800
    move.w d7,d0                     ; a note each 16 frames
    andi.w #$000f,d0
    bne.b at_31e
    move.w d7,d1
    lsr.w #$3,d1
    andi.w #$000e,d1                 ; of eight
    lea $000005a6.l,a0
    move.b $00(a0,d1.w),(a5)         ; its period
    move.b $01(a0,d1.w),(a5)
    move.b #$94,(a5)                 ; its volume
    bra.w at_31e
    org $400                ; the VDP's registers
    dc.w $8004                       ; no line interrupt
    dc.w $8134                       ; the display is off, transfers are allowed
    dc.w $8230                       ; plane A at $c000
    dc.w $833c                       ; the window at $f000
    dc.w $8407                       ; plane B at $e000
    dc.w $856c                       ; sprites at $d800
    dc.w $8700                       ; backdrop: colour 0
    dc.w $8aff                       ; no line interrupt
    dc.w $8b00                       ; whole planes scroll
    dc.w $8c89                       ; 320 dots, shadow and highlight
    dc.w $8d37                       ; the scroll table at $dc00
    dc.w $8f02                       ; addresses rise by 2
    dc.w $9001                       ; planes of 64 by 32 cells
    dc.w $9100                       ; the window has no columns
    dc.w $9203                       ; and the upper three rows
    dc.w $9300                       ; no transfer yet
    dc.w $9400
    dc.w $9500
    dc.w $9600
; colours: four palettes of 16
    dc.w $0000,$0800,$0a20,$0c40,$0000,$0000,$0000,$0000
    dc.w $0000,$0000,$0000,$0000,$0000,$0000,$0eee,$000e
    dc.w $0000,$0080,$02a2,$04c4,$0000,$0000,$0000,$0000
    dc.w $0000,$0000,$0000,$0000,$0000,$0000,$00ee,$00e0
    dc.w $0000,$000a,$024e,$04ae,$0000,$0000,$0000,$0000
    dc.w $0000,$0000,$0000,$0000,$0000,$0000,$0e0e,$0e00
    dc.w $0000,$0444,$0888,$0eee,$0000,$0000,$0000,$0000
    dc.w $0000,$0000,$0000,$0000,$0000,$0000,$0000,$0000
; pattern 0, clear
    dc.w $0000,$0000
    dc.w $0000,$0000
    dc.w $0000,$0000
    dc.w $0000,$0000
    dc.w $0000,$0000
    dc.w $0000,$0000
    dc.w $0000,$0000
    dc.w $0000,$0000
; pattern 1
    dc.w $2222,$2222
    dc.w $2111,$1112
    dc.w $2111,$1112
    dc.w $2111,$1112
    dc.w $2111,$1112
    dc.w $2111,$1112
    dc.w $2111,$1112
    dc.w $2222,$2222
; pattern 2
    dc.w $3333,$3333
    dc.w $3222,$2223
    dc.w $3211,$1123
    dc.w $3210,$0123
    dc.w $3210,$0123
    dc.w $3211,$1123
    dc.w $3222,$2223
    dc.w $3333,$3333
; pattern 3
    dc.w $1111,$1111
    dc.w $1111,$1111
    dc.w $2222,$2222
    dc.w $3333,$3333
    dc.w $3333,$3333
    dc.w $2222,$2222
    dc.w $1111,$1111
    dc.w $1111,$1111
; pattern 4: a ball, upper left
    dc.w $0000,$0fff
    dc.w $000f,$ffff
    dc.w $00ff,$ffee
    dc.w $0fff,$eeee
    dc.w $0ffe,$eeee
    dc.w $fffe,$eeee
    dc.w $ffee,$eeee
    dc.w $ffee,$eeee
; pattern 5: a ball, lower left
    dc.w $ffee,$eeee
    dc.w $ffee,$eeee
    dc.w $fffe,$eeee
    dc.w $0ffe,$eeee
    dc.w $0fff,$eeee
    dc.w $00ff,$ffee
    dc.w $000f,$ffff
    dc.w $0000,$0fff
; pattern 6: a ball, upper right
    dc.w $fff0,$0000
    dc.w $ffff,$f000
    dc.w $eeff,$ff00
    dc.w $eeee,$fff0
    dc.w $eeee,$eff0
    dc.w $eeee,$efff
    dc.w $eeee,$eeff
    dc.w $eeee,$eeff
; pattern 7: a ball, lower right
    dc.w $eeee,$eeff
    dc.w $eeee,$eeff
    dc.w $eeee,$efff
    dc.w $eeee,$eff0
    dc.w $eeee,$fff0
    dc.w $eeff,$ff00
    dc.w $ffff,$f000
    dc.w $fff0,$0000
; the periods of eight notes, A3 to A4, as the port takes them
    dc.w $8c1f                       ; 508
    dc.w $851c                       ; 453
    dc.w $8419                       ; 404
    dc.w $8d17                       ; 381
    dc.w $8315                       ; 339
    dc.w $8e12                       ; 302
    dc.w $8d10                       ; 269
    dc.w $8e0f                       ; 254
