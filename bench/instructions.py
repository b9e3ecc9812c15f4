#!/usr/bin/env python3
"""Nanoseconds an instruction of the 68000, as `predict` of m68k_exec carries it out, on one core.

    bench/instructions.py [COUNT]

A small program over `m68k_exec` (see programs.py) calls `predict` COUNT times, 2,000,000 if not given, on one
set of registers: on a cartridge that repeats the instructions of a row 500 times and branches back. Work
RAM is private, so that no instruction waits for an answer, and stays as it was. Each row runs five times,
of which the fastest counts. The time is the processor's for the program, less that of a run of no calls.
"""
import pathlib
import sys
import tempfile

import programs

REPEATS = 500
# a name, and the words
ROWS = (
    ("nop", (0x4E71,)),
    ("move.w d0,d1", (0x3200,)),
    ("add.w d0,d1", (0xD240,)),
    ("move.w (a0),d1", (0x3210,)),
    ("move.w d1,(a0)", (0x3081,)),
    ("move.l #,d1", (0x223C, 0x1234, 0x5678)),
    ("mulu d0,d1", (0xC2C0,)),
    ("move, add, cmp, bra", (0x3200, 0xD240, 0xB240, 0x6000, 0x0002)),
    ("movem.l to and from the stack", (0x48E7, 0xFF00, 0x4CDF, 0x00FF)),
)
SOURCE = """//! Carries out instructions of the 68000: `instructions COUNT WORD..`. The words, in decimal, are those of the
//! cartridge. It prints the program counter behind the last instruction, and how many came to their end.
#![tactic(auto)]

use arrayvec::ArrayVec;
use m68k_exec::{Predicted, Progress, Step, predict};
use md_word::{Regs, Request68};
use rom_header::Cart;
use std::{env, io};

/// Carries out so many instructions; returns the program counter, and how many came to their end.
fn run(cart: &Cart, count: u32) -> (u32, u32) {
    let ram = [0; 65536];
    let answers = ArrayVec::new();
    let mut progress = Progress::new();
    let mut ended = 0_u32;
    let mut regs = Regs {
        d: [0; 8],
        a: [0xff_0000; 7],
        usp: 0,
        ssp: 0xff_f000,
        pc: 0x200,
        sr: 0x2700,
    };
    let mut step = Step::Need(Request68::Ack(0));
    let mut predicted = Predicted::nothing();
    for _ in 0..count {
        predict(&mut regs, cart, &ram, &answers, 0, &mut progress, &mut step, &mut predicted);
        if let Step::Done(_) = &step {
            ended = ended.wrapping_add(1);
        }
    }
    (regs.pc, ended)
}

fn main(rt: HostRuntime) -> io::Result<()> {
    let alloc = rt.alloc();
    let mut count = 0;
    let mut image = Vec::new(alloc);
    for (place, word) in env::args(&rt)?.skip(1).enumerate() {
        let number: u32 = word.parse().unwrap_or(0);
        if place == 0 {
            count = number;
        } else {
            image.push((number / 256 % 256) as u8)?;
            image.push((number % 256) as u8)?;
        }
    }
    match Cart::accept(alloc, image) {
        Ok(cart) => {
            let (pc, ended) = run(&cart, count);
            println!(rt; "{pc} {ended}")
        }
        Err(_) => println!(rt; "refused"),
    }
}
"""


def cartridge(instructions):
    """The words of a cartridge: the instructions so often, and a branch back to the first."""
    code = REPEATS * list(instructions)
    code += [0x6000, 0x1_0000 - (2 * len(code) + 2)]
    head = [0] * 0x100
    head[:4] = [0x00FF, 0xF000, 0x0000, 0x0200]
    head[0x80:0x82] = [0x5345, 0x4741]
    return [str(word) for word in head + code]


def main():
    count = int(sys.argv[1]) if len(sys.argv) > 1 else 2_000_000
    below = ["md_word", "rom_header", "m68k_exec", "arrayvec"]
    with tempfile.TemporaryDirectory() as name:
        program = programs.build(pathlib.Path(name), "instructions", SOURCE, below)
        for row, instructions in ROWS:
            words = cartridge(instructions)
            spent = programs.seconds([program, str(count), *words]) - programs.seconds([program, "0", *words])
            print(f"{row}: {spent / count * 1e9:.0f} ns an instruction", flush=True)


if __name__ == "__main__":
    main()
