#!/usr/bin/env python3
"""Tests of hello-c: variables, division, the compiler's copies, and what each vector shows.

The cross compiler is needed (Debian: gcc-m68k-linux-gnu, binutils-m68k-linux-gnu); where it is missing a line
says so, and the status is 2.
"""
import random
import shutil
import subprocess
import sys
import unittest

import common

BUILD = common.EXAMPLES / "hello-c" / "build.sh"
TOOL, PACKAGES = "m68k-linux-gnu-gcc", "gcc-m68k-linux-gnu, binutils-m68k-linux-gnu"
MISSING = "" if shutil.which(TOOL) else f"{TOOL} is missing (Debian: {PACKAGES})"
FRAME, PICTURE, PPM_HEAD = 896_040, 215_055, 15
# Where a saved state keeps work RAM and the VDP's memories, and where plane A is.
WORK_RAM, VRAM, CRAM, PLANE_A = 227, 74_044, 139_580, 0xC000
# Numbers at which division by halves of 16 bits turns.
EDGES = [0, 1, 2, 3, 7, 10, 0x7FFF, 0x8000, 0xFFFF, 0x1_0000, 0x1_0001, 0x1_8000, 0x7FFF_FFFF, 0x8000_0000]
EDGES += [0x8000_0001, 0xFFFE_FFFF, 0xFFFF_0000, 0xFFFF_FFFE, 0xFFFF_FFFF]
# Rows at which both numbers shifted give one more than the quotient, whose product has 33 bits or is above the
# dividend: 1572 by 29B09Ah is 1000071A8h, 4 by 15F7ACFFh is 57DEB3FCh.
ROWS = [(0xFFFF_FFFC, 0x29_B09A), (0xFFFF_FFFD, 0x1_3F6F), (0xFFFF_FFFF, 0x7_62D6), (0x57DE_B3FA, 0x15F7_ACFF)]
DIVIDES = """
#define MADE ((volatile unsigned long *)0xff8000)
static volatile unsigned long rows[][2] = {%s};
void main(void) {
  for (unsigned i = 0; i < sizeof rows / 8; i++) {
    unsigned long a = rows[i][0], b = rows[i][1];
    MADE[5 * i] = a * b, MADE[5 * i + 1] = a / b, MADE[5 * i + 2] = a %% b;
    MADE[5 * i + 3] = (long)a / (long)b, MADE[5 * i + 4] = (long)a %% (long)b;
  }
}
"""
VARIABLES = """
#define MADE ((volatile unsigned long *)0xff8000)
int lives = 3;
static const char *name = "CART";
static unsigned char flags[3] = {1, 2, 3};
long zeros[5];
struct { short a[40]; char b; } one = {{5, 6}, 7}, other;
static int counts(void) { static int count = 40; return ++count; }
void main(void) {
  MADE[0] = lives, MADE[1] = *(const long *)name, MADE[2] = flags[0] << 16 | flags[1] << 8 | flags[2];
  MADE[3] = zeros[0] | zeros[4], lives--, MADE[4] = lives, counts(), MADE[5] = counts();
  other = one, MADE[6] = other.a[1] << 8 | other.b;
}
"""
TICKS = """
#define MADE ((volatile unsigned long *)0xff8000)
void __attribute__((interrupt_handler)) vertical(void) { ++*MADE; }
void main(void) {
  *(volatile unsigned short *)0xc00004 = 0x8164;
  asm volatile("move.w #0x2300,%sr");
}
"""
# What brings the 68000 to a vector: an odd address, an instruction that is none, a division by 0, a bound that is
# broken, an overflow, a privileged instruction, a trace, lines A and F, the VDP's interrupts and traps.
FAULTS = {
    3: 'asm volatile("tst.w 0xff0001.l");',
    4: 'asm volatile("illegal");',
    5: "static volatile int none; none = 100 / none;",
    6: 'asm volatile("moveq #9,%d0; moveq #5,%d1; chk %d1,%d0");',
    7: 'asm volatile("move.w #2,%ccr; trapv");',
    8: 'asm volatile("move.w #0,%sr; reset");',
    9: 'asm volatile("move.w #0xa700,%sr; nop; nop");',
    10: 'asm volatile(".short 0xa000");',
    11: 'asm volatile(".short 0xf000");',
    30: '*(volatile short *)0xc00004 = 0x8164; asm volatile("move.w #0x2300,%sr"); for (;;);',
    32: 'asm volatile("trap #0");',
    47: 'asm volatile("trap #15");',
}
# The digit 4 of fault.c, a bit a dot.
FOUR = [0b00011100, 0b00111100, 0b01101100, 0b11001100, 0b11111110, 0b00001100, 0b00001100, 0]


def quotient(a, b):
    """The quotient and the rest of two numbers as C has them: towards 0."""
    q = abs(a) // abs(b)
    q = -q if (a < 0) != (b < 0) else q
    return q, a - q * b


def signed(value):
    return value - (1 << 32) if value >> 31 else value


@unittest.skipIf(MISSING, MISSING)
class HelloC(common.Case):
    def built(self, text, name="game"):
        """The image of a program in C."""
        (self.folder / f"{name}.c").write_text(text)
        done = subprocess.run([BUILD, f"{name}.bin", f"{name}.c"], cwd=self.folder, capture_output=True, text=True)
        self.assertEqual((done.returncode, done.stderr), (0, ""))
        return f"{name}.bin"

    def state(self, image, frames):
        self.run_program("run", image, "--cycles", frames * FRAME, "--save", "state", "--frames", "frames")
        return self.bytes_of("state")

    def made(self, image, count, frames=60):
        """What a program left in work RAM at FF8000h."""
        at = WORK_RAM + 0x8000
        data = self.state(image, frames)[at : at + 4 * count]
        return [int.from_bytes(data[k : k + 4], "big") for k in range(0, len(data), 4)]

    def test_arithmetic_of_32_bits(self):
        draw = random.Random(68000)
        rows = ROWS + [(a, b) for a in EDGES for b in EDGES if b]
        rows += [(draw.getrandbits(32), draw.getrandbits(draw.randint(1, 32)) or 1) for _ in range(1000)]
        want = []
        for a, b in rows:
            want += [a * b, a // b, a % b, *quotient(signed(a), signed(b))]
        image = self.built(DIVIDES % ",".join(f"{{{a:#x}u,{b:#x}u}}" for a, b in rows))
        made = self.made(image, 5 * len(rows))
        wrong = [k for k, value in enumerate(want) if value % (1 << 32) != made[k]]
        self.assertEqual([(rows[k // 5], k % 5, hex(made[k])) for k in wrong[:5]], [])

    def test_variables_have_their_values(self):
        want = [3, 0x43415254, 0x010203, 0, 2, 42, 0x607]
        self.assertEqual(self.made(self.built(VARIABLES), 7), want)

    def test_variables_are_cleared_that_have_none(self):
        # The first cycles leave work RAM at FF0000h full of ones, before the start is run again.
        image = self.built(VARIABLES)
        data = bytearray(self.bytes_of(image))
        code = bytes.fromhex("41f900ff0000 303c3fff 20fcffffffff 51c8fff8 4ef900000200")
        at = len(data) + len(data) % 2
        data[4:8] = at.to_bytes(4, "big")
        (self.folder / image).write_bytes(data.ljust(at, b"\0") + code)
        self.assertEqual(self.made(image, 7), [3, 0x43415254, 0x010203, 0, 2, 42, 0x607])

    def test_a_function_named_vertical_gets_the_interrupt(self):
        # Of ten frames from power-on each has one, at its line 224.
        self.assertEqual(self.made(self.built(TICKS), 1, frames=10), [10])

    def shown(self, state):
        """The number that plane A shows on a red backdrop, in patterns 1 to 10 at row 2 and column 2."""
        self.assertEqual(state[CRAM : CRAM + 4], b"\x00\x0e\x0e\xee")
        at = VRAM + PLANE_A + 2 * (64 * 2 + 2)
        tens, ones = (int.from_bytes(state[at + k : at + k + 2], "big") - 1 for k in (0, 2))
        return 10 * tens + ones

    def test_each_fault_shows_its_vector(self):
        for number, text in FAULTS.items():
            with self.subTest(number):
                state = self.state(self.built(f"void main(void) {{ {text} }}"), 20)
                self.assertEqual(self.shown(state), number)

    def test_each_vector_shows_its_number(self):
        image = self.built("void main(void) {}")
        data = bytearray(self.bytes_of(image))
        for number in range(2, 64):
            data[4:8] = data[4 * number : 4 * number + 4]
            (self.folder / "begun.bin").write_bytes(data)
            self.assertEqual(self.shown(self.state("begun.bin", 16)), number)

    def test_the_picture_is_red_with_white_digits(self):
        self.state(self.built(f"void main(void) {{ {FAULTS[47]} }}"), 20)
        picture = self.bytes_of("frames")[-PICTURE:][PPM_HEAD:]
        red, white = bytes([36 * 7, 0, 0]), bytes([36 * 7] * 3)
        for row, bits in enumerate(FOUR):
            at = 3 * (320 * (16 + row) + 16)
            want = b"".join(white if bits >> (7 - dot) & 1 else red for dot in range(8))
            self.assertEqual(picture[at : at + 24], want, row)
        self.assertEqual(picture[:3] + picture[-3:], red + red)

    def test_the_example_shows_its_numbers(self):
        # Plane A at row 15: 1234567 from column 10 on and 411522, a third of it, from column 23 on; the digits
        # are the patterns behind thirteen letters.
        subprocess.run([BUILD, "hello.bin"], cwd=self.folder, check=True)
        state = self.state("hello.bin", 60)
        at = VRAM + PLANE_A + 2 * 64 * 15
        names = [int.from_bytes(state[at + 2 * k : at + 2 * k + 2], "big") - 13 for k in range(40)]
        self.assertEqual((names[10:17], names[23:30]), ([1, 2, 3, 4, 5, 6, 7], [0, 4, 1, 1, 5, 2, 2]))

    def test_too_many_variables_are_refused(self):
        (self.folder / "game.c").write_text("char big[60000]; void main(void) { big[1] = 1; }")
        done = subprocess.run([BUILD, "game.bin", "game.c"], cwd=self.folder, capture_output=True, text=True)
        self.assertNotEqual(done.returncode, 0)
        self.assertIn("the variables leave the stack less than 4,096 bytes", done.stderr)

    def test_a_missing_compiler_is_one_line(self):
        for words in ([], ["game.bin"]):
            room = {"PATH": str(self.folder)}
            done = subprocess.run([shutil.which("sh"), BUILD, *words], env=room, capture_output=True, text=True)
            self.assertEqual((done.returncode, done.stderr.count("\n")), (2, 1), done.stderr)


if __name__ == "__main__":
    if MISSING:
        print(MISSING, file=sys.stderr)
        sys.exit(2)
    unittest.main()
