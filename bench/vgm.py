#!/usr/bin/env python3
"""VGM files: how fast they are made and played, and whether they sound as the run does.

    bench/vgm.py [PROGRAM]

A small program over `md_vgm` (see programs.py) makes journals in memory and measures

    vgm      megabytes of journal a second, of 4,194,304 records that are a write to the sound generator each
    play     pairs a second, of the chord of synthesis.py on all six channels of the FM chip and a tone

The second is shown beside the FM chip's samples a second of synthesis.py's row `chord`. The time is the
processor's, less that of the same program without the call.

PROGRAM is md_prog as `rt ci` builds it, crates/md_prog/out/md_prog if not given. With it examples/scale and
examples/chord are run for four seconds with a journal and with their sound; `vgm` makes a file of the journal,
and `play` its sound. Of both sounds, and of that which ffmpeg makes of the file where it has libgme, the strongest
tones of each half second are compared, at most five: they are the same where each of one is within 1 per cent or
8 hertz, a step of the transform, of one of the other. libgme's samples are other ones, at another rate and another
loudness. The status is 0 where they are the same, else 1; without a program it is 2, and nothing is built.
"""
import cmath
import math
import pathlib
import shutil
import subprocess
import sys
import tempfile
import wave

import programs
import synthesis

EXAMPLES = programs.TOP / "examples"
CYCLES = 214_772_700
# samples of a window: at either rate less than what is left of a note of half a second where it begins
SIZE = 8_192
SOURCE = """//! Makes a VGM file of a journal, and plays one: `songs KIND TIMES`. KIND 0 makes a file of writes to the sound
//! generator, KIND 1 plays a chord of half a minute.
#![tactic(auto)]

ghost use Rattle.std.specs.Prelude.{◌≤◌, length};

use md_vgm::{from_journal, play};
use std::alloc::{AllocError, Global};
use std::{env, io};

""" + synthesis.CHORD + """
/// Appends a record.
fn record(into: &mut Vec<u8>, cycle: u64, tail: &[u8; 8]) -> Result<(), AllocError> {
    into.extend_from_slice(&cycle.to_be_bytes())?;
    into.extend_from_slice(tail)
}

/// Writes to the sound generator, 112 cycles apart.
fn tones(alloc: Global) -> Result<Vec<u8>, AllocError> {
    let mut bytes = Vec::new(alloc);
    for index in 0u32..4_194_304 {
        let tail = [0, 2, 0, 0xc0, 0, 0x11, 0, (index % 256) as u8];
        record(&mut bytes, u64::from(index) * 112, &tail)?;
    }
    Ok(bytes)
}

/// Appends a command of the FM chip's port.
fn command(into: &mut Vec<u8>, port: u8, register: u8, value: u8) -> Result<(), AllocError> {
    into.extend_from_slice(&[if port == 0 { 0x52 } else { 0x53 }, register, value])
}

/// The chord of all channels with a tone, for 30 seconds.
fn chord(alloc: Global) -> Result<Vec<u8>, AllocError> {
    let mut file = Vec::new(alloc);
    file.extend_from_slice(b"Vgm \\0\\0\\0\\0\\x50\\x01\\0\\0")?;
    file.resize(0x34, 0)?;
    file.extend_from_slice(b"\\x04\\0\\0\\0\\x50\\x8e\\x50\\x0f\\x50\\x90")?;
    for channel in 0..6_u8 {
        let (port, place) = (channel / 3, channel % 3);
        for (register, value) in OPERATOR {
            for operator in 0..4_u8 {
                let of_channel = register.wrapping_add(place);
                command(&mut file, port, of_channel.wrapping_add(4 * operator), value)?;
            }
        }
        for (register, value) in CHANNEL {
            command(&mut file, port, register.wrapping_add(place), value.wrapping_add(channel))?;
        }
        command(&mut file, port, 0xb4 + place, 0xf3)?;
        command(&mut file, 0, 0x28, 0xf0 + place + 4 * port)?;
    }
    for _ in 0..1_800u32 {
        file.push(0x62)?;
    }
    file.push(0x66)?;
    Ok(file)
}

/// The bytes of what is made of an input, so often.
fn made(alloc: Global, input: &[u8], plays: bool, times: u32) -> u64 {
    let mut all = 0u64;
    if input.len() > 67_108_864 {
        return all;
    }
    for _ in 0..times {
        let result = if plays {
            play(alloc, input, false)
        } else {
            from_journal(alloc, input, false)
        };
        if let Ok(bytes) = result {
            all = all.wrapping_add(bytes.len() as u64);
        }
    }
    all
}

fn main(rt: HostRuntime) -> io::Result<()> {
    let mut numbers = [0_u32; 2];
    for (place, word) in env::args(&rt)?.skip(1).take(2).enumerate() {
        if place < numbers.len() {
            numbers[place] = word.parse().unwrap_or(0);
        }
    }
    let [kind, times] = numbers;
    let alloc = rt.alloc();
    let input = if kind == 0 { tones(alloc) } else { chord(alloc) };
    match input {
        Ok(input) => println!(rt; "{}", made(alloc, &input, kind != 0, times)),
        Err(_) => println!(rt; "memory"),
    }
}
"""


def speeds():
    """Prints how fast files are made and played."""
    with tempfile.TemporaryDirectory() as name:
        program = programs.build(pathlib.Path(name), "songs", SOURCE, ["md_vgm"])
        spent = programs.seconds([program, "0", "1"]) - programs.seconds([program, "0", "0"])
        print(f"vgm: {67.108864 / spent:.0f} MB of journal a second", flush=True)
        size = int(subprocess.run([program, "1", "1"], check=True, capture_output=True, text=True).stdout)
        spent = programs.seconds([program, "1", "1"]) - programs.seconds([program, "1", "0"])
        print(f"play: {(size - 44) / 4 / spent / 1e6:.2f} million pairs a second", flush=True)
        below = ["md_word", "fm_chip", "arrayvec"]
        program = programs.build(pathlib.Path(name) / "fm", "samples", synthesis.SOURCE, below)
        command = [program, "0", "0"]
        spent = programs.seconds([*command, "200000"]) - programs.seconds([*command, "0"])
        print(f"synthesis of FM alone: {3.2 / spent:.2f} million samples a second")


def transformed(values):
    """The discrete Fourier transform of a power of two of values."""
    if len(values) == 1:
        return values
    even, odd = transformed(values[0::2]), transformed(values[1::2])
    half = len(even)
    turned = [cmath.exp(-1j * math.pi * k / half) * odd[k] for k in range(half)]
    return [even[k] + turned[k] for k in range(half)] + [even[k] - turned[k] for k in range(half)]


def tones_of(path, second):
    """The five strongest tones in hertz of a sound file around a time in seconds, the strongest first."""
    with wave.open(str(path)) as sound:
        rate, width = sound.getframerate(), sound.getnchannels()
        sound.setpos(min(int(second * rate), max(0, sound.getnframes() - SIZE)))
        data = sound.readframes(SIZE)
    left = [int.from_bytes(data[2 * width * k : 2 * width * k + 2], "little", signed=True) for k in range(SIZE)]
    middle = sum(left) / SIZE
    shaped = [(x - middle) * (0.5 - 0.5 * math.cos(2 * math.pi * k / SIZE)) for k, x in enumerate(left)]
    power = [abs(x) for x in transformed(shaped)[: SIZE // 2]]
    peaks = [k for k in range(2, SIZE // 2 - 1) if power[k - 1] < power[k] >= power[k + 1]]
    peaks = [k for k in peaks if 60 < k * rate / SIZE < 8_000]
    best = sorted(peaks, key=lambda k: -power[k])[:5]
    strong = [k for k in best if power[k] > power[best[0]] / 4]
    return [k * rate / SIZE for k in strong]


def are_same(ours, theirs):
    """Whether each tone of one is within 1 per cent, or 8 hertz, of one of the other."""
    near = lambda tone, tones: any(abs(tone - other) <= max(8, tone / 100) for other in tones)
    return all(near(tone, theirs) for tone in ours) and all(near(tone, ours) for tone in theirs)


def compare(name, run, other, what):
    """Prints whether two sounds of an example have the same tones."""
    differs = [s for s in (0.15 + k / 2 for k in range(7)) if not are_same(tones_of(run, s), tones_of(other, s))]
    if differs:
        second = differs[0]
        ours = " ".join(f"{tone:.0f}" for tone in tones_of(run, second))
        theirs = " ".join(f"{tone:.0f}" for tone in tones_of(other, second))
        print(f"{name}: {what} differs at {second} seconds: {ours} and {theirs}")
    else:
        print(f"{name}: {what} has the tones of the run")
    return not differs


def has_libgme():
    if shutil.which("ffmpeg") is None:
        return False
    shown = subprocess.run(["ffmpeg", "-hide_banner", "-demuxers"], capture_output=True, text=True)
    return "libgme" in shown.stdout


def listen(program, folder, name):
    """Runs an example, makes a VGM file of it, plays it, and compares."""
    image, journal, file = folder / "image.bin", folder / "run.jnl", folder / "run.vgm"
    run, played, other = folder / "run.wav", folder / "played.wav", folder / "other.wav"
    build = [program, "asm", EXAMPLES / name / f"{name}.asm", image]
    subprocess.run(build, check=True, stdout=subprocess.DEVNULL)
    words = ["run", image, "--cycles", str(CYCLES), "--journal", journal, "--sound", run]
    for command in (words, ["vgm", journal, file], ["play", file, played]):
        subprocess.run([program, *command], check=True, stdout=subprocess.DEVNULL)
    same = compare(name, run, played, "`play`")
    if has_libgme():
        subprocess.run(["ffmpeg", "-v", "error", "-y", "-i", file, "-t", "4", other], check=True)
        same = compare(name, run, other, "libgme") and same
    return same


def main():
    program = pathlib.Path(sys.argv[1]) if len(sys.argv) > 1 else programs.TOP / "crates/md_prog/out/md_prog"
    if not program.exists():
        print(f"{program} is not there: run `rt ci` first", file=sys.stderr)
        sys.exit(2)
    speeds()
    with tempfile.TemporaryDirectory() as name:
        sames = [listen(program.resolve(), pathlib.Path(name), example) for example in ("scale", "chord")]
    if not all(sames):
        sys.exit(1)


if __name__ == "__main__":
    main()
