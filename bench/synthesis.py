#!/usr/bin/env python3
"""Samples a second of the FM chip's synthesis alone, on one core and with all keys on.

    bench/synthesis.py [BATCHES]

A small program over `fm_chip` (see programs.py) makes BATCHES batches of sixteen samples, 200,000 if not given, of a chord on all six channels
in different algorithms, all four operators of each with their key on and rates that are not 0:

    chord      the low frequency oscillator off, and no write after the chord's
    vibrato    the oscillator at its fastest, with tremolo and vibrato of all channels
    levels     as chord, with a total level written in the middle of each batch
    converter  as chord, with a byte for the converter written in the middle of each batch

Each runs five times, of which the fastest counts. The time is the processor's for the program, less that
of a run of no batches. `FmSynth::batch` takes no allocator, so that it can ask for no memory: of allocations
there is none to count.
"""
import pathlib
import sys
import tempfile

import programs

ROWS = (("chord", 0x00, 0x00), ("vibrato", 0x0F, 0x00), ("levels", 0x00, 0x4C), ("converter", 0x00, 0x2A))
CHORD = """/// Registers of each operator, and their bytes.
const OPERATOR: [(u8, u8); 6] = [
    (0x30, 0x31),
    (0x40, 0x10),
    (0x50, 0x5f),
    (0x60, 0x85),
    (0x70, 0x01),
    (0x80, 0x27),
];

/// Registers of each channel, and the bytes of the first.
const CHANNEL: [(u8, u8); 3] = [(0xa4, 0x22), (0xa0, 0x69), (0xb0, 0x32)];
"""
SOURCE = """//! Makes batches of the FM chip's samples: `samples OSCILLATOR REGISTER BATCHES`. OSCILLATOR is the byte for
//! register 22; where REGISTER is not 0, each batch has a write to it in its middle.
#![tactic(auto)]

ghost use Rattle.std.specs.Prelude.{◌<◌, ◌≤◌};

use fm_chip::{FmList, FmSynth, FmWrite};
use md_word::Key;
use std::{env, io};

""" + CHORD + """
fn put(list: &mut FmList, cycle: u64, port: u8, register: u8, value: u8)
    requires { port < 2 }
{
    let _there_is_room = list.try_push(FmWrite {
        key: Key { cycle, chip: 0 },
        port,
        register,
        value,
    });
}

/// The writes of the chord.
fn chord(list: &mut FmList, oscillator: u8) {
    put(list, 0, 0, 0x22, oscillator);
    for channel in 0..6_u8 {
        let (port, place) = (channel / 3, channel % 3);
        for (register, value) in OPERATOR {
            for operator in 0..4_u8 {
                let of_channel = register.wrapping_add(place);
                put(list, 0, port, of_channel.wrapping_add(4 * operator), value);
            }
        }
        for (register, value) in CHANNEL {
            put(list, 0, port, register.wrapping_add(place), value.wrapping_add(channel));
        }
        put(list, 0, port, 0xb4 + place, 0xf3);
        put(list, 0, 0, 0x28, 0xf0 + place + 4 * port);
    }
}

/// Makes the batches; returns a sum of their samples.
fn sum_of(oscillator: u8, register: u8, batches: u32) -> i32 {
    let mut synth = FmSynth::power_on();
    let mut list = FmList::new();
    let mut out = [(0, 0); 16];
    let mut sum = 0_i32;
    chord(&mut list, oscillator);
    for n in 0..batches {
        let first = 16 * u64::from(n);
        if register != 0 {
            put(&mut list, 1_008 * (first + 8), 0, register, (n % 16) as u8);
        }
        synth.batch(first, &list, &mut out);
        list.clear();
        for (left, right) in out {
            sum = sum.wrapping_mul(31).wrapping_add(left).wrapping_add(right);
        }
    }
    sum
}

fn main(rt: HostRuntime) -> io::Result<()> {
    let mut numbers = [0_u32; 3];
    for (place, word) in env::args(&rt)?.skip(1).take(3).enumerate() {
        if place < numbers.len() {
            numbers[place] = word.parse().unwrap_or(0);
        }
    }
    let [oscillator, register, batches] = numbers;
    let sum = sum_of((oscillator % 256) as u8, (register % 256) as u8, batches);
    println!(rt; "{sum}")
}
"""


def main():
    batches = int(sys.argv[1]) if len(sys.argv) > 1 else 200_000
    with tempfile.TemporaryDirectory() as name:
        program = programs.build(pathlib.Path(name), "samples", SOURCE, ["md_word", "fm_chip", "arrayvec"])
        for row, oscillator, register in ROWS:
            command = [program, str(oscillator), str(register)]
            spent = programs.seconds([*command, str(batches)]) - programs.seconds([*command, "0"])
            rate = 16 * batches / spent
            print(f"{row}: {rate / 1e6:.2f} million samples a second, {889e6 / rate:.0f} microseconds a frame")


if __name__ == "__main__":
    main()
