#!/usr/bin/env python3
"""Prints the labels of a source, puts them to what `debug` and `asm` print, and counts how often their code is begun.

    labels.py SOURCE
    labels.py --in REPLIES SOURCE
    labels.py --profile FROM TO [--window CYCLES] SOURCE

SOURCE is a source for `md_prog asm`. The first form prints a line for each label, its address and its name, first the
68000's and then those of the Z80, with four digits, all in the order of their addresses.

The second prints the lines of REPLIES, or of standard input where that is -, which are replies of `md_prog debug` or a
list of `md_prog asm --list`. A line of `trace` or `dis` gets the label at or in front of its address, with the distance
in hexadecimal, and the names of the labels that its text has as addresses. Other lines stay as they are. What runs in
work RAM, copied there, has no label.

The third counts, from the cycle FROM to the cycle TO of a run from power-on, NTSC and with nothing pressed, what the
68000 begins. It writes scripts for `debug`, which look by `trace` each so many CYCLES, 252 if not given. A line has

    begun   how often the instruction at the label was begun
    all     how many instructions were begun from the label on up to the next label
    time    in how many of a hundred looks the last instruction begun was one of these

and the name; labels that nothing was seen of are left out. An instruction takes 28 cycles at least, so that a look
shows nine new ones at most. Where a loop of nine or fewer goes on over two looks, its turns cannot be told apart: the
fewest are counted, and a `+` says that there may be more. With 28 as CYCLES that is so of a loop of one instruction
alone, and with 28 times N of one of N or fewer. The Z80's code is not counted, and a journal would not serve: it does
not tell which instruction made an access. A second of the console takes half a minute of a processor, with 28 some
three minutes.

The status is 0, or 2 where the words are wrong and where a file cannot be read or assembled.
"""
import argparse
import bisect
import collections
import os
import pathlib
import re
import subprocess
import sys
import tempfile

PROGRAM = pathlib.Path(__file__).resolve().parent.parent / "crates" / "md_prog" / "out" / "md_prog"
MOST_SCRIPT, LATEST = 65_536, 549_755_813_888
SHORTEST, MOST_TRACE = 28, 256
WINDOW, LONGEST_WINDOW, LEAST_DEPTH = 252, SHORTEST * MOST_TRACE // 2, 64
NAME = re.compile(r"[A-Za-z][A-Za-z0-9_]{2,31}$")
REPLY = re.compile(r"([0-9a-f]{8})( .*)?$")
ADDRESS = re.compile(r"\$([0-9a-f]{8})")
OUTSIDE = "(no label)"


class Wrong(Exception):
    """Why the words or the files are wrong."""


class Words(argparse.ArgumentParser):
    """Words whose faults are one line."""

    def error(self, message):
        raise Wrong(message)


def answer_of(words):
    """What md_prog prints."""
    done = subprocess.run([PROGRAM, *words], stdout=subprocess.PIPE, text=True)
    if done.returncode:
        lines = done.stdout.splitlines()
        raise Wrong(lines[-1] if lines else f"md_prog ended with status {done.returncode}")
    return done.stdout


def names_of(source):
    """The labels of a source, each with whether it is the 68000's."""
    main, names = True, {}
    for line in source.split("\n"):
        label, colon, text = line.split(";")[0].strip(" \t").partition(":")
        if colon:
            names[label] = main
        text = (text if colon else label).strip(" \t")
        if text.startswith("cpu "):
            main = text == "cpu 68000"
    return names


def labels_of(path, folder):
    """The addresses of the 68000's labels and of the Z80's, by their names; leaves the image in a folder."""
    answer_of(["asm", path, folder / "image"])
    source = pathlib.Path(path).read_bytes()
    names = names_of(source.decode("latin-1"))
    # what the assembler makes of each name, as a long behind `move.l #,d0`, which has two bytes
    place = (folder / "image").stat().st_size + 1 & ~1
    lines = ["", "cpu 68000", f"org ${place:x}", *(f"move.l #{name},d0" for name in names), ""]
    (folder / "longer.asm").write_bytes(source + "\n".join(lines).encode())
    answer_of(["asm", folder / "longer.asm", folder / "longer"])
    rest = (folder / "longer").read_bytes()[place:]
    values = {name: int.from_bytes(rest[6 * k + 2 : 6 * k + 6], "big") for k, name in enumerate(names)}
    main = {name: value for name, value in values.items() if names[name]}
    return main, {name: value for name, value in values.items() if not names[name]}


class Places:
    """Labels by their addresses."""

    def __init__(self, labels):
        self.names = {}
        for name, value in labels.items():
            self.names.setdefault(value, name)
        self.starts = sorted(self.names)

    def label(self, address):
        """The label at or in front of an address, and the distance."""
        found = bisect.bisect_right(self.starts, address) - 1
        if found < 0 or address >= 0x400000:
            return OUTSIDE, 0
        return self.names[self.starts[found]], address - self.starts[found]

    def told(self, address):
        name, distance = self.label(address)
        return f"{name}+{distance:x}" if distance else name


def show_labels(main, z80):
    """Prints the labels."""
    for name, value in sorted(main.items(), key=lambda label: label[1]):
        print(f"{value:08x} {name}")
    for name, value in sorted(z80.items(), key=lambda label: label[1]):
        print(f"{value:04x} {name}")


def with_names(line, places):
    """A line of `trace`, of `dis` or of a list with its names, any other as it is."""
    found = REPLY.match(line)
    if not found:
        return line
    targets = (int(digits, 16) for digits in ADDRESS.findall(found[2] or ""))
    told = [places.told(int(found[1], 16)), *(places.names[target] for target in targets if target in places.names)]
    return f"{line:<{44 if found[2] else 9}}; {', '.join(told)}"


def show_replies(name, places):
    """Prints the lines of a file with their names."""
    with sys.stdin if name == "-" else open(name) as file:
        for line in file:
            print(with_names(line.rstrip("\n"), places))


def scripts_of(first, last, window, depth):
    """The scripts that look from one cycle to another, each with how many looks it has."""
    look = f"trace {depth}\n"
    script, count = f"run {first}\n{look}", 1
    for cycle in range(first, last, window):
        end = min(cycle + window, last)
        line = f"run {end}\n{look}"
        if len(script) + len(line) > MOST_SCRIPT:
            yield script, count
            script, count = f"run {cycle}\n{look}", 1
        script, count = script + line, count + 1
    yield script, count


def looks_of(replies):
    """The addresses of each look."""
    looks = []
    for line in replies.splitlines():
        if line.startswith("at "):
            looks.append([])
        else:
            looks[-1].append(int(line, 16))
    return looks


def new_ones(before, after, most, depth):
    """The fewest instructions that a look shows beyond the one before, and those that may be more."""
    if len(after) < depth:
        return after[len(before) :], []
    counts = [n for n in range(min(most, len(after)) + 1) if fits(before, after, n, depth)]
    if not counts:
        raise Wrong("the looks do not fit together")
    return after[len(after) - counts[0] :], after[len(after) - counts[-1] : len(after) - counts[0]]


def fits(before, after, count, depth):
    """Whether a look may be so many instructions behind another."""
    kept = after[: len(after) - count]
    return before[len(before) - len(kept) :] == kept and len(before) + count >= depth


class Profile:
    """What was counted of each label."""

    def __init__(self, places):
        self.places, self.looks = places, 0
        self.begun, self.all, self.time = (collections.Counter() for _ in range(3))
        self.more = {"begun": set(), "all": set()}

    def take(self, before, after, most, depth):
        """Counts what one look shows beyond the one before."""
        fresh, more = new_ones(before, after, most, depth)
        for address in fresh:
            name, distance = self.places.label(address)
            self.begun[name] += distance == 0
            self.all[name] += 1
        for address in more:
            name, distance = self.places.label(address)
            self.more["all"].add(name)
            if distance == 0:
                self.more["begun"].add(name)
        if after:
            self.time[self.places.label(after[-1])[0]] += 1
        self.looks += 1

    def show(self):
        """Prints a line for each label of which something was seen, in the order of their addresses."""
        print("     begun        all  time")
        for name in [*(self.places.names[start] for start in self.places.starts), OUTSIDE]:
            if self.all[name] or self.time[name]:
                begun = f"{self.begun[name]}{'+' if name in self.more['begun'] else ' '}"
                whole = f"{self.all[name]}{'+' if name in self.more['all'] else ' '}"
                print(f"{begun:>11}{whole:>11} {100 * self.time[name] / self.looks:5.1f}  {name}")


def profile(places, folder, first, last, window):
    """Counts from one cycle to another."""
    most = -(-window // SHORTEST)
    depth = max(2 * most, LEAST_DEPTH)
    counted = Profile(places)
    for script, count in scripts_of(first, last, window, depth):
        (folder / "script").write_text(script)
        looks = looks_of(answer_of(["debug", folder / "image", folder / "script"]))
        if len(looks) != count:
            raise Wrong("debug did not answer each line")
        for before, after in zip(looks, looks[1:]):
            counted.take(before, after, most, depth)
    counted.show()


def words_of(arguments):
    """The command line, read."""
    parser = Words(description=__doc__, formatter_class=argparse.RawTextHelpFormatter)
    forms = parser.add_mutually_exclusive_group()
    forms.add_argument("--in", dest="replies", metavar="REPLIES")
    forms.add_argument("--profile", type=int, nargs=2, metavar=("FROM", "TO"))
    parser.add_argument("--window", type=int, default=WINDOW, metavar="CYCLES")
    parser.add_argument("source", metavar="SOURCE")
    words = parser.parse_args(arguments)
    if words.profile and not 0 <= words.profile[0] < words.profile[1] <= LATEST:
        raise Wrong(f"the cycles go up, from 0 at least to {LATEST} at most")
    if not SHORTEST <= words.window <= LONGEST_WINDOW:
        raise Wrong(f"a window has {SHORTEST} to {LONGEST_WINDOW} cycles")
    return words


def run(words, folder):
    """Prints what the words ask for."""
    main, z80 = labels_of(words.source, folder)
    if words.profile:
        profile(Places(main), folder, *words.profile, words.window)
    elif words.replies:
        show_replies(words.replies, Places(main))
    else:
        show_labels(main, z80)
    sys.stdout.flush()


def main():
    try:
        words = words_of(sys.argv[1:])
        if not PROGRAM.exists():
            raise Wrong(f"{PROGRAM} is missing: run `rt ci` first")
        with tempfile.TemporaryDirectory() as name:
            run(words, pathlib.Path(name))
    except BrokenPipeError:
        os.dup2(os.open(os.devnull, os.O_WRONLY), sys.stdout.fileno())
    except (Wrong, OSError, UnicodeDecodeError) as fault:
        print(f"{sys.argv[0]}: {fault}", file=sys.stderr)
        return 2
    return 0


if __name__ == "__main__":
    sys.exit(main())
