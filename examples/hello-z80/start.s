; The Z80's vectors and the way to main: initial values are copied to the variables, and the others are cleared.
        .module start
        .globl  _main
        .globl  l__INITIALIZER, s__INITIALIZER, s__INITIALIZED, l__DATA, s__DATA
        .area   _VECTORS (ABS)
        .org    0x00
        di
        ld      sp, #0x1ff0
        jp      begin
; RST 08 to 30, and 38, which is the interrupt of the picture too. A program with a handler jumps to it here.
        .org    0x08
        call    shown
        .org    0x10
        call    shown
        .org    0x18
        call    shown
        .org    0x20
        call    shown
        .org    0x28
        call    shown
        .org    0x30
        call    shown
        .org    0x38
        call    shown

; The order in which the linker lays its areas out.
        .area   _CODE
        .area   _HOME
        .area   _INITIALIZER
        .area   _GSINIT
        .area   _GSFINAL
        .area   _DATA
        .area   _INITIALIZED
        .area   _BSEG
        .area   _BSS
        .area   _HEAP

        .area   _CODE
begin:  ld      bc, #l__DATA
        ld      hl, #s__DATA
1$:     ld      a, b
        or      a, c
        jr      Z, 2$
        ld      (hl), #0
        inc     hl
        dec     bc
        jr      1$
2$:     ld      bc, #l__INITIALIZER
        ld      a, b
        or      a, c
        jr      Z, 3$
        ld      hl, #s__INITIALIZER
        ld      de, #s__INITIALIZED
        ldir
3$:     call    started
        call    _main
4$:     jr      4$
; Where an RST or an interrupt without a handler comes to: its address goes to 1FFFh, and noise is heard.
shown:  di
        pop     hl
        ld      a, l
        sub     a, #3
        ld      (0x1fff), a
        ld      hl, #5$
        ld      b, #5
6$:     ld      a, (hl)
        ld      (0x7f11), a
        inc     hl
        djnz    6$
7$:     jr      7$
5$:     .db     0x9f, 0xbf, 0xdf, 0xe4, 0xf0

; What the compiler sets at the start.
        .area   _GSINIT
started::
        .area   _GSFINAL
        ret
