/* Shows a text from a font of one bit a dot and two numbers, and plays A4 on the sound generator. */
#include "console.h"
static const char letters[] = " HELO,WRDFMC!", text[] = "HELLO, WORLD FROM C!";
static const unsigned char font[][8] = {
    {0, 0, 0, 0, 0, 0, 0, 0},                         {0xc6, 0xc6, 0xc6, 0xfe, 0xc6, 0xc6, 0xc6, 0},
    {0xfe, 0xc0, 0xc0, 0xf8, 0xc0, 0xc0, 0xfe, 0},    {0xc0, 0xc0, 0xc0, 0xc0, 0xc0, 0xc0, 0xfe, 0},
    {0x7c, 0xc6, 0xc6, 0xc6, 0xc6, 0xc6, 0x7c, 0},    {0, 0, 0, 0, 0, 0x30, 0x30, 0x60},
    {0xc6, 0xc6, 0xc6, 0xd6, 0xfe, 0xee, 0xc6, 0},    {0xfc, 0xc6, 0xc6, 0xfc, 0xd8, 0xcc, 0xc6, 0},
    {0xf8, 0xcc, 0xc6, 0xc6, 0xc6, 0xcc, 0xf8, 0},    {0xfe, 0xc0, 0xc0, 0xf8, 0xc0, 0xc0, 0xc0, 0},
    {0xc6, 0xee, 0xfe, 0xd6, 0xc6, 0xc6, 0xc6, 0},    {0x7c, 0xc6, 0xc0, 0xc0, 0xc0, 0xc6, 0x7c, 0},
    {0x30, 0x30, 0x30, 0x30, 0x30, 0, 0x30, 0}};
#define LETTERS (sizeof font / 8)
static int lives = 3;            /* kept in the cartridge, and copied into work RAM at the start */
static unsigned long best = 1234567, points; /* `points` is cleared there */
static void number(unsigned long value, unsigned short at) { /* seven decimal digits */
  for (int column = 6; column >= 0; column--, value /= 10) address(1, at + 2 * column), DATA = LETTERS + value % 10;
}
void main(void) {
  set_up(0x0600); /* blue */
  address(1, 0);
  for (unsigned i = 0; i < LETTERS; i++) glyph(font[i]);
  for (int i = 0; i < 10; i++) glyph(digits[i]);
  address(1, 0xc000 + 2 * (64 * 13 + 10)); /* row 13, column 10 of plane A */
  for (int i = 0, k = 0; text[i]; DATA = k, k = 0, i++) while (letters[k] != text[i]) k++;
  points += best / lives;
  number(best, 0xc000 + 2 * (64 * 15 + 10)), number(points, 0xc000 + 2 * (64 * 15 + 23));
  CONTROL = 0x8144; /* the display on */
  SOUND = 0xbf, SOUND = 0xdf, SOUND = 0xff, SOUND = 0x8e, SOUND = 0x0f, SOUND = 0x90; /* A4 alone */
}
