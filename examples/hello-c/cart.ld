/* Code, constants and the initial values of variables in the cartridge, the variables in work RAM from FF0000h on. */
SECTIONS {
  .text 0 : { *(.head) *(.text*) *(.rodata*) . = ALIGN(2); }
  .data 0xff0000 : AT(SIZEOF(.text)) { data_begin = .; *(.data*) . = ALIGN(2); data_end = .; }
  data_kept = LOADADDR(.data);
  .bss (NOLOAD) : { . = ALIGN(2); bss_begin = .; *(.bss*) *(COMMON) . = ALIGN(2); bss_end = .; }
  /DISCARD/ : { *(.eh_frame*) *(.comment) *(.note*) }
}
ASSERT(bss_end <= 0xffe000, "the variables leave the stack less than 4,096 bytes")
ASSERT(data_kept + SIZEOF(.data) <= 0x400000, "the cartridge is longer than 4,194,304 bytes")
