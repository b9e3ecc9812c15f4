; Fills all of the video memory, transfers 16 bytes from the cartridge, copies five of them to an odd
; address, fills once more with an increment of 2, and then reads all of the video memory back.
    org $0
    dc.w $00ff,$f000                 ; supervisor stack pointer
    dc.w $0000,$0200                 ; start of the program
    org $100
    dc.w $5345,$4741                 ; "SEGA"
    org $1f0                ; the words that are transferred
    dc.w $0102,$0304,$0506,$0708,$090a,$0b0c,$0d0e,$0f10
    org $200
    move.b $00a10001.l,d0            ; the version
    andi.b #$0f,d0                   ; 0 where the console locks nothing
    beq.b at_216
    move.l #$53454741,$00a14000.l    ; unlock the VDP and the sound generator
at_216:
    lea $00c00004.l,a0               ; the VDP's control port
    lea $00c00000.l,a1               ; its data port
    tst.w (a0)                       ; no control word waits
    move.w #$8114,(a0)               ; DMA on, display off
    move.w #$8f01,(a0)               ; increment 1
    move.w #$9300,(a0)               ; a length of 0, which is 65,536
    move.w #$9400,(a0)
    move.w #$9780,(a0)               ; a fill
    move.w #$4000,(a0)               ; of VRAM from 0 on
    move.w #$0080,(a0)
    move.w #$5ac3,(a1)               ; with 5A
; wait for its end
at_244:
    move.w (a0),d0
    btst #$01,d0
    bne.b at_244
    move.w #$8f02,(a0)               ; increment 2
    move.w #$9308,(a0)               ; 8 words
    move.w #$95f8,(a0)               ; from 1F0h
    move.w #$9600,(a0)
    move.w #$9700,(a0)               ; a transfer
    move.w #$5000,(a0)               ; to VRAM at 1000h
    move.w #$0080,(a0)
    move.w #$8f01,(a0)               ; increment 1
    move.w #$9305,(a0)               ; 5 bytes
    move.w #$9500,(a0)               ; from VRAM at 1000h
    move.w #$9610,(a0)
    move.w #$97c0,(a0)               ; a copy
    move.w #$2003,(a0)               ; to VRAM at 2003h
    move.w #$00c0,(a0)
; wait for its end
at_284:
    move.w (a0),d0
    btst #$01,d0
    bne.b at_284
    move.w #$8f02,(a0)               ; increment 2
    move.w #$9304,(a0)               ; 4 bytes
    move.w #$9780,(a0)               ; a fill
    move.w #$7000,(a0)               ; of VRAM from 3000h on
    move.w #$0080,(a0)
    move.w #$7788,(a1)               ; with 77
; wait for its end
at_2a4:
    move.w (a0),d0
    btst #$01,d0
    bne.b at_2a4
    move.w #$0000,(a0)               ; read VRAM from 0 on
    move.w #$0000,(a0)
    move.w #$3fff,d2                 ; 16,384 longs
at_2b8:
    move.l (a1),d3
    dbf d2,at_2b8
at_2be:
    bra.b at_2be
