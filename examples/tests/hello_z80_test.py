#!/usr/bin/env python3
"""Tests of hello-z80: variables, division, and what each vector tells.

Debian's package sdcc is needed; where it is missing a line says so, and the status is 2.
"""
import shutil
import subprocess
import sys
import unittest

import common

BUILD = common.EXAMPLES / "hello-z80" / "build.sh"
MISSING = "" if shutil.which("sdcc") else "sdcc is missing (Debian: sdcc)"
FRAME = 896_040
# Where a saved state keeps the Z80's RAM, and where programs here leave what they made.
RAM, MADE = 65_826, 0x1E00
VARIABLES = """
#define MADE ((volatile unsigned char *)0x1e00)
int lives = 3;
static unsigned char flags[3] = {1, 2, 3};
static const char *name = "CART";
long zeros[5];
static int counts(void) { static int count = 40; return ++count; }
void main(void) {
  MADE[0] = lives, MADE[1] = flags[0], MADE[2] = flags[2], MADE[3] = name[3], MADE[4] = zeros[0] | zeros[4];
  lives--, MADE[5] = lives, counts(), MADE[6] = counts(), MADE[7] = 0xaa;
}
"""
DIVIDES = """
volatile unsigned int a = 65000, b = 7;
volatile int c = -1000, d = 7;
volatile unsigned long e = 4000000000, f = 70001;
long made[7];
void main(void) {
  unsigned char i, *from = (unsigned char *)made, *to = (unsigned char *)0x1e00;
  made[0] = a / b, made[1] = a % b, made[2] = c / d, made[3] = c % d, made[4] = e / f, made[5] = e % f, made[6] = e * f;
  for (i = 0; i < sizeof made; i++) *to++ = *from++;
}
"""
# 65000 = 7 * 9285 + 5; -1000 = 7 * -142 - 6; 4000000000 = 70001 * 57142 + 2858; the product modulo 2^32.
DIVIDED = [9285, 5, -142, -6, 57142, 2858, 4_000_000_000 * 70_001 % (1 << 32)]


@unittest.skipIf(MISSING, MISSING)
class HelloZ80(common.Case):
    def built(self, text, status=0):
        (self.folder / "game.c").write_text(text)
        command = [BUILD, self.folder / "game.bin", self.folder / "game.c"]
        done = subprocess.run(command, cwd=self.folder, capture_output=True, text=True)
        self.assertEqual((done.returncode, done.stderr.count("\n")), (status, status // 2), done.stderr)

    def ram(self, text):
        """The Z80's RAM where a program has run for ten frames."""
        self.built(text)
        self.run_program("run", "game.bin", "--cycles", 10 * FRAME, "--save", "state", "--sound", "sound")
        return self.bytes_of("state")[RAM : RAM + 8192]

    def test_variables_have_their_values(self):
        made = self.ram(VARIABLES)[MADE : MADE + 8]
        self.assertEqual(list(made), [3, 1, 3, ord("T"), 0, 2, 42, 0xAA])

    def test_division(self):
        made = self.ram(DIVIDES)[MADE:]
        values = [int.from_bytes(made[4 * k : 4 * k + 4], "little") for k in range(len(DIVIDED))]
        self.assertEqual(values, [value % (1 << 32) for value in DIVIDED])

    def test_each_vector_tells_its_address_and_is_heard(self):
        for address in range(0x08, 0x40, 8):
            ram = self.ram(f"void main(void) {{ __asm rst {address:#04x} \n __endasm; }}")
            self.assertEqual(ram[0x1FFF], address)
            self.assertTrue(any(self.bytes_of("sound")[-64:]))

    def test_an_interrupt_without_a_handler_tells_38(self):
        text = "void main(void) { __asm im 1 \n ei \n __endasm; for (;;); }"
        self.assertEqual(self.ram(text)[0x1FFF], 0x38)

    def test_without_a_fault_nothing_is_told(self):
        self.assertEqual(self.ram("void main(void) {}")[0x1FFF], 0xFF)

    def test_what_does_not_fit_is_one_line(self):
        self.built("const char big[7200] = {1}; void main(void) { }", status=2)
        self.built("char big[800]; void main(void) { big[1] = 1; }", status=2)

    def test_a_missing_compiler_is_one_line(self):
        for words in ([], ["game.bin"]):
            room = {"PATH": str(self.folder)}
            done = subprocess.run([shutil.which("sh"), BUILD, *words], env=room, capture_output=True, text=True)
            self.assertEqual((done.returncode, done.stderr.count("\n")), (2, 1), done.stderr)


if __name__ == "__main__":
    if MISSING:
        print(MISSING, file=sys.stderr)
        sys.exit(2)
    unittest.main()
