; A tone of 440 Hz on the sound generator, played by a program that the 68000 copies into the Z80's RAM.
    org $0
    dc.w $00ff,$f000                 ; supervisor stack pointer
    dc.w $0000,$0200                 ; start of the program
    org $100
    dc.w $5345,$4741                 ; "SEGA"
    org $200
    move.b $00a10001.l,d0            ; the version
    andi.b #$0f,d0                   ; 0 where the console locks nothing
    beq.b at_216
    move.l #$53454741,$00a14000.l    ; unlock the VDP and the sound generator
at_216:
    lea $00c00011.l,a0               ; the sound generator's port
    move.b #$bf,(a0)                 ; the channels but the first, silent
    move.b #$df,(a0)
    move.b #$ff,(a0)
    lea $00a11100.l,a1               ; the request for the Z80's bus
    lea $00a11200.l,a3               ; its reset
    move.w #$0100,(a1)               ; request the bus
    move.w #$0100,(a3)               ; and release the reset
; wait for the grant
at_23c:
    btst #$00,(a1)                   ; 0 where it is granted
    bne.b at_23c
    lea $00a00000.l,a0               ; the Z80's RAM
    lea $0026(pc),a2                 ; its program
    moveq #$0a,d0                    ; of 11 bytes
at_24e:
    move.b (a2)+,(a0)+
    dbf d0,at_24e
    move.w #$0000,(a3)               ; reset the Z80 again
    moveq #$13,d0                    ; for 26 microseconds at the least
at_25a:
    dbf d0,at_25a
    move.w #$0000,(a1)               ; release its bus
    move.w #$0100,(a3)               ; and its reset
at_266:
    bra.b at_266                     ; for ever
    org $270
    cpu z80 $0                       ; the program of the Z80
    ld hl,$7f11                      ; the sound generator's port
    ld (hl),$8e                      ; channel 0, low four bits of the period
    ld (hl),$0f                      ; high six bits: 254 ticks half a wave
    ld (hl),$90                      ; channel 0, full volume
here: jr here                        ; for ever
    db $00
