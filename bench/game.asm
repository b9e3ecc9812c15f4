; What a game does in a frame: chords of the FM chip, a melody of the sound generator, two planes that scroll, 40
; sprites, and one transfer. The VDP is written to in the vertical interrupt alone: while a picture is drawn it stands.
    org $0
    dc.w $00ff,$f000                 ; supervisor stack pointer
    dc.w $0000,start                 ; start of the program
    org $78
    dc.w $0000,blanking              ; the vertical interrupt
    org $100
    dc.w $5345,$4741                 ; "SEGA"
    org $200
start:
    lea $00c00000.l,a3               ; the VDP's data port
    lea $0004(a3),a4                 ; its control port
    lea $00c00011.l,a5               ; the sound generator's port
    lea $00ff0000.l,a6               ; 40 sprites in work RAM, and a count of frames
    lea $00a11100.l,a1               ; the request for the Z80's bus
    clr.w $0200(a6)
    move.b #$9f,(a5)                 ; all channels, silent
    move.b #$bf,(a5)
    move.b #$df,(a5)
    move.b #$ff,(a5)
    move.w #$0100,(a1)               ; request the bus
    move.w #$0100,$0100(a1)          ; and release the reset
granted:
    btst #$00,(a1)                   ; 0 where it is granted
    bne.b granted
    lea $00a00000.l,a0               ; the Z80's RAM
    move.b #$18,(a0)                 ; the program of the Z80
    move.b #$fe,$0001(a0)            ; jr *, for ever
    move.w #$0000,$0100(a1)          ; reset both again
    moveq #$13,d0                    ; for 26 microseconds at the least
reset:
    dbf d0,reset
    move.w #$0100,$0100(a1)          ; and release them
    lea voices.l,a2
    moveq #$5c,d0                    ; 93 registers
    bsr.w write_fm
    move.w #$0000,(a1)               ; release the bus
    lea tables.l,a0
    moveq #$12,d0                    ; 19 registers
registers:
    move.w (a0)+,(a4)
    dbf d0,registers
    move.l #$c0000000,(a4)           ; write colours
    moveq #$3f,d0
colours:
    move.w (a0)+,(a3)
    dbf d0,colours
    move.l #$40000000,(a4)           ; write patterns from 0 on
    moveq #$3f,d0                    ; four of 16 words
patterns:
    move.w (a0)+,(a3)
    dbf d0,patterns
    move.l #$60000003,(a4)           ; plane B at $e000
    move.w #$07ff,d0                 ; 64 by 32 cells
plane_b:
    move.w d0,d1                     ; squares of four cells in two palettes
    move.w d0,d2
    lsr.w #$2,d1
    lsr.w #$8,d2
    eor.w d1,d2
    andi.w #$0001,d2
    moveq #$0d,d3
    lsl.w d3,d2
    addq.w #$1,d2                    ; pattern 1
    move.w d2,(a3)
    dbf d0,plane_b
    move.l #$40000003,(a4)           ; plane A at $c000
    move.w #$07ff,d0
plane_a:
    move.w d0,d1                     ; each fourth cell, between which it is clear
    andi.w #$0003,d1
    bne.b clear
    move.w #$4002,d1                 ; pattern 2 in palette 2
    bra.b cell
clear:
    moveq #$00,d1
cell:
    move.w d1,(a3)
    dbf d0,plane_a
    movea.l a6,a0
    moveq #$00,d0                    ; the sprites' number
sprite:
    move.w d0,d1                     ; Y: five lines lower each
    mulu #$0005,d1
    addi.w #$0080,d1
    move.w d1,(a0)+
    move.w d0,d1                     ; one cell, and the link
    addq.w #$1,d1
    cmpi.w #$0028,d1
    bne.b linked
    moveq #$00,d1                    ; the last one ends the list
linked:
    move.w d1,(a0)+
    move.w d0,d1                     ; each palette in turn, pattern 3, with priority
    andi.w #$0003,d1
    moveq #$0d,d2
    lsl.w d2,d1
    addi.w #$8003,d1
    move.w d1,(a0)+
    move.w d0,d1                     ; X: 24 dots further each, and never 0
    mulu #$0018,d1
    addi.w #$0081,d1
    move.w d1,(a0)+
    addq.w #$1,d0
    cmpi.w #$0028,d0
    bne.b sprite
    move.w #$8174,(a4)               ; display, vertical interrupt and transfers are on
; a frame: wait for the interrupt, and move the sprites of the next one
frame:
    stop #$2000
    movea.l a6,a0
    moveq #$27,d0
moved:
    move.w d0,d1                     ; 2, 4, 6 or 8 dots to the right
    andi.w #$0006,d1
    addq.w #$2,d1
    add.w d1,$0006(a0)
    andi.w #$01ff,$0006(a0)
    addq.w #$1,(a0)                  ; a line down
    andi.w #$01ff,(a0)
    lea $0008(a0),a0
    dbf d0,moved
    bra.b frame
; the vertical interrupt
blanking:
    addq.w #$1,$0200(a6)             ; a frame more
    move.w $0200(a6),d7
    move.l #$5c000003,(a4)           ; the scroll table at $dc00
    move.w d7,(a3)                   ; plane A a dot to the right
    move.w d7,d6
    lsr.w #$1,d6
    neg.w d6
    move.w d6,(a3)                   ; plane B half a dot to the left
    move.l #$40000010,(a4)           ; the vertical scroll
    move.w d6,(a3)                   ; plane A half a line down
    move.w d7,(a3)                   ; plane B a line up
    move.w #$93a0,(a4)               ; a transfer of 160 words
    move.w #$9400,(a4)
    move.w #$9500,(a4)               ; from $ff0000
    move.w #$9680,(a4)
    move.w #$977f,(a4)
    move.l #$58000083,(a4)           ; to the sprites at $d800
    move.w d7,d6                     ; a note each 8 frames
    andi.w #$0007,d6
    bne.b played
    move.w d7,d6
    lsr.w #$2,d6
    andi.w #$000e,d6                 ; of eight
    lea notes.l,a0
    move.b $00(a0,d6.w),(a5)         ; its period
    move.b $01(a0,d6.w),(a5)
    move.b #$94,(a5)                 ; its volume
    move.w d7,d6                     ; a chord each 32 frames
    andi.w #$001f,d6
    bne.b played
    move.w #$0100,(a1)               ; request the bus
waiting:
    btst #$00,(a1)
    bne.b waiting
    move.w d7,d6
    andi.w #$0060,d6                 ; of four, 32 bytes apart
    lea chords.l,a2
    adda.w d6,a2
    moveq #$0b,d0                    ; 12 registers
    bsr.w write_fm
    move.w #$0000,(a1)               ; release the bus
played:
    rte
; writes d0 + 1 registers of the FM chip, each with its byte, from a2 on
write_fm:
    lea $00a04000.l,a0
busy:
    tst.b (a0)
    bmi.b busy
    move.b (a2)+,(a0)                ; the register
    move.b (a2)+,$0001(a0)           ; its byte
    dbf d0,busy
    rts
    org $400
tables:                              ; the VDP's registers
    dc.w $8004                       ; no line interrupt
    dc.w $8134                       ; the display is off, transfers are allowed
    dc.w $8230                       ; plane A at $c000
    dc.w $833c                       ; the window at $f000
    dc.w $8407                       ; plane B at $e000
    dc.w $856c                       ; sprites at $d800
    dc.w $8700                       ; backdrop: colour 0
    dc.w $8aff                       ; no line interrupt
    dc.w $8b00                       ; whole planes scroll
    dc.w $8c81                       ; 320 dots
    dc.w $8d37                       ; the scroll table at $dc00
    dc.w $8f02                       ; addresses rise by 2
    dc.w $9001                       ; planes of 64 by 32 cells
    dc.w $9100                       ; no window
    dc.w $9200
    dc.w $9300                       ; no transfer yet
    dc.w $9400
    dc.w $9500
    dc.w $9600
; colours: four palettes of 16
    dc.w $0000,$0800,$0a20,$0c40,$0000,$0000,$0000,$0000
    dc.w $0000,$0000,$0000,$0000,$0000,$0000,$0eee,$000e
    dc.w $0000,$0080,$02a2,$04c4,$0000,$0000,$0000,$0000
    dc.w $0000,$0000,$0000,$0000,$0000,$0000,$00ee,$00e0
    dc.w $0000,$000a,$024e,$04ae,$0000,$0000,$0000,$0000
    dc.w $0000,$0000,$0000,$0000,$0000,$0000,$0e0e,$0e00
    dc.w $0000,$0444,$0888,$0eee,$0000,$0000,$0000,$0000
    dc.w $0000,$0000,$0000,$0000,$0000,$0000,$0aaa,$0666
; pattern 0, clear
    dc.w $0000,$0000
    dc.w $0000,$0000
    dc.w $0000,$0000
    dc.w $0000,$0000
    dc.w $0000,$0000
    dc.w $0000,$0000
    dc.w $0000,$0000
    dc.w $0000,$0000
; pattern 1
    dc.w $2222,$2222
    dc.w $2111,$1112
    dc.w $2111,$1112
    dc.w $2111,$1112
    dc.w $2111,$1112
    dc.w $2111,$1112
    dc.w $2111,$1112
    dc.w $2222,$2222
; pattern 2
    dc.w $3333,$3333
    dc.w $3222,$2223
    dc.w $3211,$1123
    dc.w $3210,$0123
    dc.w $3210,$0123
    dc.w $3211,$1123
    dc.w $3222,$2223
    dc.w $3333,$3333
; pattern 3: a ball
    dc.w $00ff,$ff00
    dc.w $0ffe,$eff0
    dc.w $ffee,$eeff
    dc.w $feee,$eeef
    dc.w $feee,$eeef
    dc.w $ffee,$eeff
    dc.w $0ffe,$eff0
    dc.w $00ff,$ff00
notes:                               ; the periods of eight notes, A3 to A4, as the port takes them
    dc.w $8c1f                       ; 508
    dc.w $851c                       ; 453
    dc.w $8419                       ; 404
    dc.w $8d17                       ; 381
    dc.w $8315                       ; 339
    dc.w $8e12                       ; 302
    dc.w $8d10                       ; 269
    dc.w $8e0f                       ; 254
voices:                              ; the FM chip's registers and their bytes
    dc.w $2200,$2700,$2b00           ; no oscillator, no timers, no converter
; channel 1
    dc.w $3001,$3401,$3801,$3c01     ; no detune, once the frequency
    dc.w $4020,$4424,$4810,$4c10     ; two pairs of operators
    dc.w $501f,$541f,$581f,$5c1f     ; attack at once
    dc.w $6008,$6408,$6808,$6c08     ; a slow decay
    dc.w $7000,$7400,$7800,$7c00
    dc.w $802f,$842f,$882f,$8c2f     ; fast release
    dc.w $9000,$9400,$9800,$9c00     ; no shaped envelope
    dc.w $b034,$b4c0                 ; each pair with feedback, on both sides
; channel 2
    dc.w $3101,$3501,$3901,$3d01     ; no detune, once the frequency
    dc.w $4120,$4524,$4910,$4d10     ; two pairs of operators
    dc.w $511f,$551f,$591f,$5d1f     ; attack at once
    dc.w $6108,$6508,$6908,$6d08     ; a slow decay
    dc.w $7100,$7500,$7900,$7d00
    dc.w $812f,$852f,$892f,$8d2f     ; fast release
    dc.w $9100,$9500,$9900,$9d00     ; no shaped envelope
    dc.w $b134,$b5c0                 ; each pair with feedback, on both sides
; channel 3
    dc.w $3201,$3601,$3a01,$3e01     ; no detune, once the frequency
    dc.w $4220,$4624,$4a10,$4e10     ; two pairs of operators
    dc.w $521f,$561f,$5a1f,$5e1f     ; attack at once
    dc.w $6208,$6608,$6a08,$6e08     ; a slow decay
    dc.w $7200,$7600,$7a00,$7e00
    dc.w $822f,$862f,$8a2f,$8e2f     ; fast release
    dc.w $9200,$9600,$9a00,$9e00     ; no shaped envelope
    dc.w $b234,$b6c0                 ; each pair with feedback, on both sides
chords:                              ; keys off, three notes of block 4, keys on; 32 bytes each
; C, E and G: 644, 811, 965
    dc.w $2800,$2801,$2802,$a422,$a084,$a523,$a12b,$a623
    dc.w $a2c5,$28f0,$28f1,$28f2,$0000,$0000,$0000,$0000
; A, C and E: 1083, 1288, 1622
    dc.w $2800,$2801,$2802,$a424,$a03b,$a525,$a108,$a626
    dc.w $a256,$28f0,$28f1,$28f2,$0000,$0000,$0000,$0000
; F, A and C: 859, 1083, 1288
    dc.w $2800,$2801,$2802,$a423,$a05b,$a524,$a13b,$a625
    dc.w $a208,$28f0,$28f1,$28f2,$0000,$0000,$0000,$0000
; G, B and D: 965, 1215, 1445
    dc.w $2800,$2801,$2802,$a423,$a0c5,$a524,$a1bf,$a625
    dc.w $a2a5,$28f0,$28f1,$28f2,$0000,$0000,$0000,$0000
