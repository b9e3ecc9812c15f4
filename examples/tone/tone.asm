; One tone of 440 Hz on the first channel of the sound generator.
    org $0
    dc.w $00ff,$f000                 ; supervisor stack pointer
    dc.w $0000,$0200                 ; start of the program
    org $100
    dc.w $5345,$4741                 ; "SEGA"
    org $200
    move.b $00a10001.l,d0            ; the version
    andi.b #$0f,d0                   ; 0 where the console locks nothing
    beq.b at_216
    move.l #$53454741,$00a14000.l    ; unlock the VDP and the sound generator
at_216:
    lea $00c00011.l,a0               ; the sound generator's port
    move.b #$bf,(a0)                 ; the other channels, silent
    move.b #$df,(a0)
    move.b #$ff,(a0)
    move.b #$8e,(a0)                 ; channel 0, low four bits of the period
    move.b #$0f,(a0)                 ; high six bits: 254 ticks half a wave
    move.b #$90,(a0)                 ; channel 0, full volume
at_234:
    bra.b at_234                     ; for ever
