#!/usr/bin/env python3
"""Tries the program that `rt ci` has built on cartridges, recordings, states and words that are altered at
random, and compares each answer with what the manual says (`bench/expected.py`).

    bench/fuzz.py SEED SECONDS [--case N] [--keep FOLDER]

Case n of a seed is always the same; `--case N` tries that one alone. The cartridges are the examples and
random ones, the states are theirs. Of the runs that end well some are made once more with several workers,
or cut in two at a saved state, and have to write the same. It ends at the first case whose program ends by
a signal, does not end in ten times the longest usual time and within a minute more, or answers otherwise
than the manual says; then it prints the case and copies its files to FOLDER, and its status is 1. Else it
prints how many cases of each kind it tried, and what came of them, and its status is 0.
"""
import argparse
import collections
import pathlib
import random
import shutil
import subprocess
import sys
import tempfile
import time

import expected

TOP = pathlib.Path(__file__).resolve().parent.parent
PROGRAM = TOP / "crates" / "md_prog" / "out" / "md_prog"
sys.path.insert(0, str(TOP / "examples"))
import assembled

FRAME = expected.FRAME
EXAMPLES = ("chord", "pads", "readback", "scale", "show", "sort", "tone", "z80tone")
BYTES = (0x00, 0x01, 0x7F, 0x80, 0xFF)
NUMBERS = (0, 1, 27, 28, 16_128, 16_129, 766_080, 766_081, FRAME, FRAME + 1, 2 * FRAME)
NAMES = {"in": b"play.rec", "load": b"old.mds", "save": b"new.mds", "frames": b"f.ppm", "sound": b"s.wav", "journal": b"j.jnl"}


class Found(Exception):
    """What is wrong with a case."""


def run(words, folder, seconds):
    """Runs the program; answers its status and its text."""
    command = [str(PROGRAM).encode(), *words]
    start = time.monotonic()
    try:
        done = subprocess.run(command, cwd=folder, stdout=subprocess.PIPE, stderr=subprocess.STDOUT, timeout=seconds + 60)
    except subprocess.TimeoutExpired:
        raise Found(f"no end after {seconds + 60:.0f} seconds") from None
    if done.returncode < 0:
        raise Found(f"ended by signal {-done.returncode}")
    return done.returncode, done.stdout, time.monotonic() - start > seconds


def random_bytes(chance, length):
    return chance.getrandbits(8 * length).to_bytes(length, "big") if length else b""


def random_cartridge(chance):
    """Random bytes with a mark, mostly with vectors at which a program can begin."""
    image = bytearray(random_bytes(chance, chance.choice((512, 1_000, 4_097, 65_536))))
    image[0x100:0x104] = b"SEGA"
    if chance.random() < 0.8:
        image[:8] = bytes.fromhex("00fff000") + (0x200).to_bytes(4, "big")
        for vector in range(2, 64):
            image[4 * vector : 4 * vector + 4] = (0x200 + 2 * chance.randrange(100)).to_bytes(4, "big")
    return bytes(image)


def altered(chance, data):
    """Bytes with one to eight changes, each of one byte, of some, or of the length."""
    data = bytearray(data)
    for _ in range(chance.choice((1, 1, 1, 2, 3, 8))):
        place, length = chance.randrange(len(data) + 1), chance.choice((1, 2, 4, 16, 64))
        way = chance.randrange(10)
        if way < 3 and place < len(data):
            data[place] ^= 1 << chance.randrange(8)
        elif way < 5 and place < len(data):
            data[place] = chance.choice(BYTES)
        elif way < 7:
            data[place : place + length] = random_bytes(chance, len(data[place : place + length]))
        elif way < 8:
            other = chance.randrange(len(data) + 1)
            data[place : place + length] = data[other : other + len(data[place : place + length])]
        elif way < 9 and chance.random() < 0.3:
            del data[place:]
        elif chance.random() < 0.3:
            data[place:place] = random_bytes(chance, length)
    return bytes(data)


def altered_state(chance, state):
    """A state with some changes, mostly in the small fields, and of the same length."""
    data = bytearray(state)
    small = (40, 189), (65_763, 65_826), (74_020, 74_044), (139_788, 139_835), (370_243, 370_274), (382_559, 383_322), (393_558, 393_620)
    for _ in range(chance.choice((1, 1, 2, 4))):
        first, last = chance.choice(small) if chance.random() < 0.7 else (0, len(data))
        place = chance.randrange(first, last)
        length = min(chance.choice((1, 1, 1, 2, 4, 8)), last - place)
        way = chance.randrange(3)
        if way == 0:
            data[place] ^= 1 << chance.randrange(8)
        elif way == 1:
            data[place : place + length] = bytes([chance.choice(BYTES)]) * length
        else:
            data[place : place + length] = random_bytes(chance, length)
    return bytes(data)


def some_recording(chance):
    """A recording of some frames."""
    frames = chance.randrange(0, 6)
    flags = chance.choice((None, None, 0, 1, 2, 3))
    lead = b"MDREC001" if flags is None else b"MDREC002\0" + bytes((flags,))
    most = [0x1000 if flags and flags >> pad & 1 else 0x100 for pad in (0, 1)]
    words = b"".join(chance.randrange(most[pad]).to_bytes(2, "big") for _ in range(frames) for pad in (0, 1))
    return lead + frames.to_bytes(4, "big") + words


def some_words(chance, end, load):
    """The words of a run that ends well, in any order, with some outputs."""
    keys = [key for key in ("save", "frames", "sound", "journal") if chance.random() < 0.6]
    keys += ["in"] if chance.random() < 0.4 else []
    keys += ["load"] if load else []
    options = [[b"--cycles", b"%d" % end], *([b"--" + key.encode(), NAMES[key]] for key in keys)]
    if chance.random() < 0.1:
        options.append([b"--workers", b"%d" % chance.randint(1, 5)])
    options = [[b"=".join(option)] if chance.random() < 0.3 else option for option in options]
    options.append([b"game.bin"])
    chance.shuffle(options)
    return [b"run", *(word for option in options for word in option)]


def altered_words(chance, words):
    """Words of which some are gone, doubled, moved, or others."""
    words = list(words)
    others = [b"--", b"-", b"", b"--in", b"--cycles", b"--workers", b"6", b"0", b"05", b"18446744073709551616"]
    others += [b"549755813889", b"000000000000000000016", b"1e3", b"--sound=", b"--x", b"-h", b"--help", b"\xff", b"info", b"run", b"none.bin"]
    for _ in range(chance.choice((1, 1, 2, 3))):
        place = chance.randrange(len(words) + 1)
        way = chance.randrange(4)
        if way == 0:
            del words[place : place + 1]
        elif way == 1:
            words.insert(place, chance.choice(words or others))
        elif way == 2:
            words.insert(place, chance.choice(others))
        else:
            words[place : place + 1] = [chance.choice(others)]
    return words


class Corpus:
    """The cartridges and the states to begin with, and the longest usual times of a run by one worker and by
    five, which wait for one another so often that a busy machine takes seconds for a frame."""

    def __init__(self, seed, folder):
        chance = random.Random(f"corpus {seed}")
        self.images, self.states, self.longest = [], [], 0.0
        for example in EXAMPLES:
            self.images.append(assembled.image_of(TOP / "examples" / example / f"{example}.asm"))
        for image in self.images + [random_cartridge(chance) for _ in range(4)]:
            for _ in range(3):
                self.save(image, chance.randint(1, 8 * FRAME), folder)
        start = time.monotonic()
        run([b"run", b"game.bin", b"--cycles", b"%d" % (3 * FRAME), b"--workers=5"], folder, 600)
        self.longest_by_five = time.monotonic() - start

    def limit(self, words):
        """Ten times the longest usual time of such words."""
        command = expected.read_words(words) or {}
        is_alone = command.get("workers", 1) == 1
        return max(1.0, 10 * self.longest) if is_alone else max(5.0, 10 * self.longest_by_five)

    def save(self, image, cycle, folder):
        """Keeps the state of a cartridge at a cycle."""
        (folder / "game.bin").write_bytes(image)
        start = time.monotonic()
        status, text, _ = run([b"run", b"game.bin", b"--cycles", b"%d" % cycle, b"--save", b"new.mds"], folder, 60)
        self.longest = max(self.longest, time.monotonic() - start)
        if status != 0:
            raise Found(f"status {status} with {text!r} of a run from power-on")
        self.states.append((image, cycle, (folder / "new.mds").read_bytes()))
        self.kept = {state for _, _, state in self.states}


def cartridge_case(chance, corpus):
    image = altered(chance, chance.choice(corpus.images)) if chance.random() < 0.5 else random_cartridge(chance)
    if chance.random() < 0.1:
        return {b"game.bin": image}, [b"info", b"game.bin"]
    end = chance.choice((*NUMBERS, chance.randint(1, 3 * FRAME)))
    return {b"game.bin": image, b"play.rec": some_recording(chance)}, some_words(chance, end, False)


def recording_case(chance, corpus):
    recording = altered(chance, some_recording(chance))
    words = some_words(chance, chance.randint(1, 3 * FRAME), False)
    if NAMES["in"] not in b" ".join(words):
        words += [b"--in", NAMES["in"]]
    return {b"game.bin": chance.choice(corpus.images), b"play.rec": recording}, words


def state_case(chance, corpus):
    image, cycle, state = chance.choice(corpus.states)
    state = altered_state(chance, state) if chance.random() < 0.8 else altered(chance, state)
    if chance.random() < 0.02:
        image = altered(chance, image)
    end = cycle + chance.choice((0, 1, 28, 16_128, FRAME, chance.randint(1, 2 * FRAME)))
    files = {b"game.bin": image, b"old.mds": state, b"play.rec": some_recording(chance)}
    return files, some_words(chance, end, True)


def words_case(chance, corpus):
    image, cycle, state = chance.choice(corpus.states)
    load = chance.random() < 0.5
    words = some_words(chance, cycle + chance.randint(1, FRAME) if load else chance.choice(NUMBERS), load)
    files = {b"game.bin": image, b"old.mds": state, b"play.rec": some_recording(chance)}
    for name in list(files):
        if chance.random() < 0.05:
            del files[name]
    return files, altered_words(chance, words)


KINDS = {"cartridge": cartridge_case, "recording": recording_case, "state": state_case, "words": words_case}
WEIGHTS = (3, 2, 5, 3)


def outputs_of(answer, files, folder):
    """The outputs that are there, by their options' names; an input that is as it was is none."""
    run_words = answer.run or {}
    names = {key: run_words.get(key, NAMES[key]) for key in expected.OUTPUTS if not run_words or key in run_words}
    found = {}
    for key, name in names.items():
        path = folder / name.decode()
        if path.is_file() and (data := path.read_bytes()) != files.get(name):
            found[key] = data
    return found


def emptied(folder):
    for path in folder.iterdir():
        path.unlink()


def tried(words, files, kept, folder, seconds):
    """Tries one case; answers its expected answer, its status, its outputs and whether it was slow."""
    emptied(folder)
    for name, data in files.items():
        (folder / name.decode()).write_bytes(data)
    answer = expected.answer_of(words, files, kept)
    status, text, slow = run(words, folder, seconds)
    outputs = outputs_of(answer, files, folder)
    fault = expected.wrong(answer, status, text, outputs)
    written = [answer.run[key] for key in outputs] if answer.run else []
    for name in files.keys() - set(written):
        if (folder / name.decode()).read_bytes() != files[name]:
            fault = fault or f"{name.decode()} has changed"
    if fault:
        raise Found(fault)
    return answer, status, outputs, slow


def words_for(command, **changed):
    """The words of a command, with some values changed, or left out where they are None."""
    values = {**command, **changed}
    words = [b"run", values["rom"]]
    for key in expected.OPTIONS:
        if values.get(key) is not None:
            value = values[key]
            words += [b"--" + key.encode(), value if isinstance(value, bytes) else b"%d" % value]
    return words


def same_by_workers(chance, answer, outputs, files, folder, seconds):
    """The same run by another number of workers writes the same."""
    command = answer.run
    workers = chance.choice([count for count in range(1, 6) if count != command["workers"]])
    other = tried(words_for(command, workers=workers), files, (), folder, seconds)[2]
    if other != outputs:
        raise Found(f"{workers} workers write other files")


def same_in_two(chance, answer, outputs, files, folder, seconds):
    """The same run in two parts writes the same."""
    command, start = answer.run, answer.start
    if command["cycles"] - start < 2:
        return
    middle = chance.randint(start + 1, command["cycles"] - 1)
    first = tried(words_for(command, cycles=middle, save=b"half.mds"), files, (), folder, seconds)[2]
    half = {**files, b"half.mds": first["save"]}
    second = tried(words_for(command, load=b"half.mds"), half, {first["save"]}, folder, seconds)[2]
    for key in outputs:
        if together(key, first[key], second[key], outputs[key]) != outputs[key]:
            raise Found(f"cut at {middle} its {key} is another")


def together(key, first, second, whole):
    """The outputs of two parts put together; the head of a sound file is that of the whole."""
    if key == "save":
        return second
    return whole[:44] + first[44:] + second[44:] if key == "sound" else first + second


def try_case(number, seed, corpus, folder, counts):
    """Tries the case of a number."""
    chance = random.Random(f"{seed} {number}")
    kind = chance.choices(list(KINDS), WEIGHTS)[0]
    files, words = KINDS[kind](chance, corpus)
    seconds = corpus.limit(words)
    try:
        answer, status, outputs, slow = tried(words, files, corpus.kept, folder, seconds)
        counts[f"{kind}: status {status}"] += 1
        if slow and tried(words, files, corpus.kept, folder, seconds)[3]:
            raise Found(f"no end after {seconds:.1f} seconds, twice")
        if status == 0 and answer.run is not None:
            more = chance.randrange(16)
            if more == 0:
                counts["again with other workers"] += 1
                same_by_workers(chance, answer, outputs, files, folder, max(5.0, 10 * corpus.longest_by_five))
            elif more < 3:
                counts["again in two parts"] += 1
                same_in_two(chance, answer, outputs, files, folder, seconds)
    except Found as found:
        raise Found(f"case {number}, {kind}: {found}\nwords {words}") from None


def main():
    parser = argparse.ArgumentParser(description=__doc__, formatter_class=argparse.RawTextHelpFormatter)
    parser.add_argument("seed", metavar="SEED")
    parser.add_argument("seconds", metavar="SECONDS", type=float)
    parser.add_argument("--case", type=int, metavar="N")
    parser.add_argument("--keep", type=pathlib.Path, metavar="FOLDER")
    words = parser.parse_args()
    if not PROGRAM.exists():
        sys.exit(f"{PROGRAM} is missing: run `rt ci` first")
    counts, number, ends = collections.Counter(), 0, time.monotonic() + words.seconds
    with tempfile.TemporaryDirectory() as name:
        folder = pathlib.Path(name)
        try:
            corpus = Corpus(words.seed, folder)
            if words.case is not None:
                try_case(words.case, words.seed, corpus, folder, counts)
            while words.case is None and time.monotonic() < ends:
                try_case(number, words.seed, corpus, folder, counts)
                number += 1
        except Found as found:
            print(found)
            if words.keep:
                shutil.copytree(folder, words.keep, dirs_exist_ok=True)
            return 1
    print(f"seed {words.seed}: {number} cases, the longest usual run {corpus.longest * 1000:.0f} ms, nothing wrong")
    for kind, count in sorted(counts.items()):
        print(f"{kind}: {count}")
    return 0


if __name__ == "__main__":
    sys.exit(main())
