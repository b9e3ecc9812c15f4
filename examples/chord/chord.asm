; A chord of three notes on the FM chip, A4, C sharp 5 and E5, and soft noise on the sound generator.
    org $0
    dc.w $00ff,$f000                 ; supervisor stack pointer
    dc.w $0000,$0200                 ; start of the program
    org $100
    dc.w $5345,$4741                 ; "SEGA"
    org $200
    move.b $00a10001.l,d0            ; the version
    andi.b #$0f,d0                   ; 0 where the console locks nothing
    beq.b at_216
    move.l #$53454741,$00a14000.l    ; unlock the VDP and the sound generator
at_216:
    lea $00a11100.l,a1               ; the request for the Z80's bus
    lea $00a11200.l,a3               ; its reset, which is the FM chip's too
    move.w #$0100,(a1)               ; request the bus
    move.w #$0100,(a3)               ; and release the reset
; wait for the grant
at_22a:
    btst #$00,(a1)                   ; 0 where it is granted
    bne.b at_22a
    lea $00a00000.l,a0               ; the Z80's RAM
    move.b #$18,(a0)                 ; the program of the Z80
    move.b #$fe,$0001(a0)            ; jr *, for ever
    move.w #$0000,(a3)               ; reset both again
    moveq #$13,d0                    ; for 26 microseconds at the least
at_246:
    dbf d0,at_246
    move.w #$0100,(a3)               ; and release them
    lea $00a04000.l,a0               ; the FM chip
    lea $003a(pc),a2                 ; its registers and their bytes
    moveq #$68,d0                    ; 105 of them
; wait while the chip is busy
at_25a:
    tst.b (a0)
    bmi.b at_25a
    move.b (a2)+,(a0)                ; the register
    move.b (a2)+,$0001(a0)           ; its byte
    dbf d0,at_25a
    move.w #$0000,(a1)               ; release the bus
    lea $00c00011.l,a3               ; the sound generator's port
    move.b #$9f,(a3)                 ; its three tones, silent
    move.b #$bf,(a3)
    move.b #$df,(a3)
    move.b #$e4,(a3)                 ; white noise, a step each 512 clocks
    move.b #$f8,(a3)                 ; its volume
at_286:
    bra.b at_286                     ; for ever
    org $290                ; the FM chip's registers and their bytes
    dc.w $2200,$2700,$2b00           ; no oscillator, no timers, no converter
    dc.w $2800,$2801,$2802           ; keys of channels 1 to 3 off
; channel 1: A4
    dc.w $3001,$3401,$3801,$3c01     ; no detune, once the frequency
    dc.w $407f,$447f,$487f,$4c08     ; only operator 4 is heard
    dc.w $501f,$541f,$581f,$5c1f     ; attack at once
    dc.w $6000,$6400,$6800,$6c00     ; no decay
    dc.w $7000,$7400,$7800,$7c00
    dc.w $800f,$840f,$880f,$8c0f     ; fast release
    dc.w $9000,$9400,$9800,$9c00     ; no shaped envelope
    dc.w $b007,$b4c0                 ; four carriers, on both sides
    dc.w $a424,$a03b                 ; block 4, 1083
; channel 2: C sharp 5
    dc.w $3101,$3501,$3901,$3d01     ; no detune, once the frequency
    dc.w $417f,$457f,$497f,$4d08     ; only operator 4 is heard
    dc.w $511f,$551f,$591f,$5d1f     ; attack at once
    dc.w $6100,$6500,$6900,$6d00     ; no decay
    dc.w $7100,$7500,$7900,$7d00
    dc.w $810f,$850f,$890f,$8d0f     ; fast release
    dc.w $9100,$9500,$9900,$9d00     ; no shaped envelope
    dc.w $b107,$b5c0                 ; four carriers, on both sides
    dc.w $a525,$a154                 ; block 4, 1364
; channel 3: E5
    dc.w $3201,$3601,$3a01,$3e01     ; no detune, once the frequency
    dc.w $427f,$467f,$4a7f,$4e08     ; only operator 4 is heard
    dc.w $521f,$561f,$5a1f,$5e1f     ; attack at once
    dc.w $6200,$6600,$6a00,$6e00     ; no decay
    dc.w $7200,$7600,$7a00,$7e00
    dc.w $820f,$860f,$8a0f,$8e0f     ; fast release
    dc.w $9200,$9600,$9a00,$9e00     ; no shaped envelope
    dc.w $b207,$b6c0                 ; four carriers, on both sides
    dc.w $a626,$a256                 ; block 4, 1622
    dc.w $28f0,$28f1,$28f2           ; keys on
