; Copies 8 KiB of the cartridge from 400 on into the Z80's RAM, and lets it run.
    org $0
    dc.w $00ff,$f000                 ; supervisor stack pointer
    dc.w $0000,$0200                 ; start of the program
    org $100
    dc.w $5345,$4741                 ; "SEGA"
    org $200
    move.b $00a10001.l,d0            ; the version
    andi.b #$0f,d0                   ; 0 where the console locks nothing
    beq.b at_216
    move.l #$53454741,$00a14000.l    ; unlock the VDP and the sound generator
at_216:
    lea $00a11100.l,a1               ; the request for the Z80's bus
    lea $00a11200.l,a3               ; its reset, which is the FM chip's too
    move.w #$0100,(a1)               ; request the bus
    move.w #$0100,(a3)               ; and release the reset
; wait for the grant
at_22a:
    btst #$00,(a1)                   ; 0 where it is granted
    bne.b at_22a
    lea $00a00000.l,a0               ; the Z80's RAM
    lea $00000400.l,a2               ; its program
    move.w #$1fff,d0                 ; of 8,192 bytes
at_240:
    move.b (a2)+,(a0)+
    dbf d0,at_240
    move.w #$0000,(a3)               ; reset it again
    moveq #$13,d0                    ; for 26 microseconds at the least
at_24c:
    dbf d0,at_24c
    move.w #$0000,(a1)               ; release its bus
    move.w #$0100,(a3)               ; and its reset
at_258:
    bra.b at_258                     ; for ever
    org $3fe
    dc.w $0000
