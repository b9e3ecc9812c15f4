; A scale of eight notes on the first channel of the sound generator, half a second each.
    org $0
    dc.w $00ff,$f000                 ; supervisor stack pointer
    dc.w $0000,$0200                 ; start of the program
    org $100
    dc.w $5345,$4741                 ; "SEGA"
    org $200
    move.b $00a10001.l,d0            ; the version
    andi.b #$0f,d0                   ; 0 where the console locks nothing
    beq.b at_216
    move.l #$53454741,$00a14000.l    ; unlock the VDP and the sound generator
at_216:
    lea $00c00011.l,a0               ; the sound generator's port
    move.b #$90,(a0)                 ; channel 0, full volume
    move.b #$bf,(a0)                 ; the other channels, silent
    move.b #$df,(a0)
    move.b #$ff,(a0)
    moveq #$00,d0
; C4, 428 ticks half a wave
    move.b #$8c,(a0)                 ; low four bits of the period
    move.b #$1a,(a0)                 ; high six bits
    moveq #$04,d1                    ; four times
at_238:
    subq.w #$1,d0                    ; 65,536 turns of 98 cycles
    bne.b at_238
    subq.w #$1,d1
    bne.b at_238
; D4, 381 ticks half a wave
    move.b #$8d,(a0)                 ; low four bits of the period
    move.b #$17,(a0)                 ; high six bits
    moveq #$04,d1                    ; four times
at_24a:
    subq.w #$1,d0                    ; 65,536 turns of 98 cycles
    bne.b at_24a
    subq.w #$1,d1
    bne.b at_24a
; E4, 339 ticks half a wave
    move.b #$83,(a0)                 ; low four bits of the period
    move.b #$15,(a0)                 ; high six bits
    moveq #$04,d1                    ; four times
at_25c:
    subq.w #$1,d0                    ; 65,536 turns of 98 cycles
    bne.b at_25c
    subq.w #$1,d1
    bne.b at_25c
; F4, 320 ticks half a wave
    move.b #$80,(a0)                 ; low four bits of the period
    move.b #$14,(a0)                 ; high six bits
    moveq #$04,d1                    ; four times
at_26e:
    subq.w #$1,d0                    ; 65,536 turns of 98 cycles
    bne.b at_26e
    subq.w #$1,d1
    bne.b at_26e
; G4, 285 ticks half a wave
    move.b #$8d,(a0)                 ; low four bits of the period
    move.b #$11,(a0)                 ; high six bits
    moveq #$04,d1                    ; four times
at_280:
    subq.w #$1,d0                    ; 65,536 turns of 98 cycles
    bne.b at_280
    subq.w #$1,d1
    bne.b at_280
; A4, 254 ticks half a wave
    move.b #$8e,(a0)                 ; low four bits of the period
    move.b #$0f,(a0)                 ; high six bits
    moveq #$04,d1                    ; four times
at_292:
    subq.w #$1,d0                    ; 65,536 turns of 98 cycles
    bne.b at_292
    subq.w #$1,d1
    bne.b at_292
; B4, 226 ticks half a wave
    move.b #$82,(a0)                 ; low four bits of the period
    move.b #$0e,(a0)                 ; high six bits
    moveq #$04,d1                    ; four times
at_2a4:
    subq.w #$1,d0                    ; 65,536 turns of 98 cycles
    bne.b at_2a4
    subq.w #$1,d1
    bne.b at_2a4
; C5, 214 ticks half a wave
    move.b #$86,(a0)                 ; low four bits of the period
    move.b #$0d,(a0)                 ; high six bits
    moveq #$04,d1                    ; four times
at_2b6:
    subq.w #$1,d0                    ; 65,536 turns of 98 cycles
    bne.b at_2b6
    subq.w #$1,d1
    bne.b at_2b6
; silence
    move.b #$9f,(a0)                 ; channel 0, no volume
at_2c2:
    bra.b at_2c2
