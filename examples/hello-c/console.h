/* The ports of the VDP and of the sound generator, and what programs do with them first. */
#define DATA (*(volatile unsigned short *)0xc00000)
#define CONTROL (*(volatile unsigned short *)0xc00004)
#define SOUND (*(volatile unsigned char *)0xc00011)
extern const unsigned char digits[10][8];
static inline void address(unsigned short code, unsigned short at) { /* of the next words of data */
  CONTROL = code << 14 | (at & 0x3fff), CONTROL = (code >> 2) << 4 | at >> 14;
}
static inline void fill(unsigned short code, long count) { /* words of 0 from address 0 on */
  for (address(code, 0); count > 0; count--) DATA = 0;
}
static inline void set_up(unsigned short backdrop) { /* no display, memories cleared, colour 0 and white */
  static const unsigned short registers[] = {
      0x8004, 0x8114, 0x8230, 0x8407, 0x856c, 0x8700, 0x8b00, 0x8c81, /* mode 5, 320 dots, no display */
      0x8d37, 0x8f02, 0x9001, 0x9100, 0x9200}; /* planes of 64 by 32 cells, no window, addresses by 2 */
  (void)CONTROL; /* a first control word no longer waits */
  for (unsigned i = 0; i < sizeof registers / 2; i++) CONTROL = registers[i];
  fill(1, 32768), fill(3, 64), fill(5, 40); /* VRAM, CRAM, VSRAM */
  address(3, 0), DATA = backdrop, DATA = 0x0eee;
}
static inline void glyph(const unsigned char *rows) { /* eight rows of eight dots, four bits each */
  for (int row = 0; row < 8; row++)
    for (int half = 4; half >= 0; half -= 4) {
      unsigned short word = 0;
      for (int bit = 3; bit >= 0; bit--) word = word << 4 | (rows[row] >> (half + bit) & 1);
      DATA = word;
    }
}
