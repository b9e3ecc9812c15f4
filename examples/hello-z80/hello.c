/* For the Z80: eight notes on the FM chip, again and again, each a little softer than the last. */
#define FM ((volatile unsigned char *)0x4000)
#define PSG (*(volatile unsigned char *)0x7f11)
/* Registers and bytes of channel 1: one operator is heard, and one an octave above bends it. */
static const unsigned char voice[] = {
    0x22, 0x00, 0x27, 0x00, 0x2b, 0x00, 0x28, 0x00, /* no oscillator, no timers, no converter, keys off */
    0x30, 0x01, 0x34, 0x02, 0x38, 0x01, 0x3c, 0x01, /* times the frequency */
    0x40, 0x7f, 0x44, 0x24, 0x48, 0x7f, 0x4c, 0x08, /* how loud they are */
    0x50, 0x1f, 0x54, 0x1f, 0x58, 0x1f, 0x5c, 0x1f, /* attack at once */
    0x60, 0x00, 0x64, 0x0a, 0x68, 0x00, 0x6c, 0x08, /* decay */
    0x70, 0x00, 0x74, 0x00, 0x78, 0x00, 0x7c, 0x00, 0x80, 0x2f, 0x84, 0x0f, 0x88, 0x0f, 0x8c, 0x2f,
    0x90, 0x00, 0x94, 0x00, 0x98, 0x00, 0x9c, 0x00, 0xb0, 0x04, 0xb4, 0xc0}; /* on both sides */
/* C4 to C5: the block in the upper byte, with the upper three bits of the number. */
static const unsigned int notes[] = {0x2284, 0x22d3, 0x232b, 0x235b, 0x23c5, 0x243b, 0x24bf, 0x2a84};
static unsigned int loudness = 120; /* kept in the program, and copied at the start */
static unsigned char played;        /* cleared there */
static void write(unsigned char number, unsigned char byte) {
  while (FM[0] & 0x80);
  FM[0] = number;
  FM[1] = byte;
}
/* Waits for 13 overflows of timer B, which come each 38.4 milliseconds. */
static void rest(void) {
  unsigned char count;
  for (count = 0; count < 13; count++) {
    write(0x27, 0x2a);
    while (!(FM[0] & 2));
  }
}
void main(void) {
  unsigned char i;
  for (i = 0; i < 4; i++) PSG = 0x9f + 0x20 * i; /* the sound generator's channels, silent */
  for (i = 0; i < sizeof voice; i += 2) write(voice[i], voice[i + 1]);
  write(0x26, 0x80);
  for (;;)
    for (i = 0; i < 8; i++, played++) {
      write(0x28, 0x00);
      write(0x4c, (1000 - loudness * (8 - played % 8)) / 20);
      write(0xa4, notes[i] >> 8);
      write(0xa0, notes[i] & 0xff);
      write(0x28, 0xf0);
      rest();
    }
}
