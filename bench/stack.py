#!/usr/bin/env python3
"""What each function of the program that `rt ci` has built has of its own on the stack.

    bench/stack.py [--least BYTES] [--most BYTES] [PROGRAM]

Prints the functions with at least so many bytes, 4,096 if not given, the largest first: the name, the bytes
with the saved registers and the return address, and who calls it. Behind them stand the calls, each within
the one before, that need the most from main on. A call through a pointer, a function that calls itself again
and the C library are in no sum. The status is 1 where a function has more than the most bytes, 16,384 if not
given.

It reads the machine code by `objdump`, of the package binutils.
"""
import argparse
import pathlib
import re
import shutil
import subprocess
import sys

TOP = pathlib.Path(__file__).resolve().parent.parent
PROGRAM = TOP / "crates" / "md_prog" / "out" / "md_prog"
WORD = 8
HEAD = re.compile(r"[0-9a-f]+ <(.*)>:$")
TARGET = re.compile(r"\s(?:call|jmp)\s+[0-9a-f]+ <(.*)>$")
# A large frame is taken page by page: first its end is put into a register, then the steps lead there.
END = re.compile(r"\ssub\s+\$0x([0-9a-f]+),%r11$")
STEP = re.compile(r"\ssub\s+\$0x([0-9a-f]+),%rsp$")
TO_END = re.compile(r"\scmp\s+%r11,%rsp$")
PUSH = re.compile(r"\spush\s+%\w+$")


class Function:
    """A function's bytes on the stack, and whom it calls."""

    def __init__(self):
        self.size = WORD
        self.calls = set()
        self.end = self.step = 0

    def read(self, line):
        """Takes an instruction in."""
        if PUSH.search(line):
            self.size += WORD
        elif found := END.search(line):
            self.end = int(found[1], 16)
        elif found := STEP.search(line):
            self.step = int(found[1], 16)
            self.size += self.step
        elif TO_END.search(line):
            self.size += self.end - self.step
        elif found := TARGET.search(line):
            self.calls.add(found[1])


def functions_of(program):
    """The functions of a program by name."""
    code = subprocess.run(["objdump", "-d", "--no-show-raw-insn", program], check=True, capture_output=True, text=True)
    functions, last = {}, Function()
    for line in code.stdout.splitlines():
        if found := HEAD.match(line):
            last = functions.setdefault(found[1], Function())
        else:
            last.read(line)
    return functions


def deepest(functions, name, path, known):
    """The bytes that calls from a function on need at most, and their names."""
    if name not in known:
        inner = [callee for callee in functions[name].calls if callee in functions and callee not in path]
        below = [deepest(functions, callee, path | {callee}, known) for callee in sorted(inner)]
        size, names = max(below, default=(0, []))
        known[name] = functions[name].size + size, [name, *names]
    return known[name]


def callers_of(functions, name):
    return sorted(caller for caller, function in functions.items() if name in function.calls and caller != name)


def main():
    parser = argparse.ArgumentParser(description=__doc__, formatter_class=argparse.RawTextHelpFormatter)
    parser.add_argument("--least", type=int, default=4_096)
    parser.add_argument("--most", type=int, default=16_384)
    parser.add_argument("program", nargs="?", type=pathlib.Path, default=PROGRAM)
    words = parser.parse_args()
    if not words.program.exists():
        sys.exit(f"{words.program} is missing: run `rt ci` first")
    if not shutil.which("objdump"):
        sys.exit("objdump is missing: install binutils")
    functions = functions_of(words.program)
    if "main" not in functions:
        sys.exit(f"{words.program} has no names of functions")
    for name, function in sorted(functions.items(), key=lambda pair: -pair[1].size):
        if function.size >= words.least:
            print(name, function.size, "from", ", ".join(callers_of(functions, name)) or "a pointer")
    size, names = deepest(functions, "main", {"main"}, {})
    print(f"main needs {size}:", *(f"    {name} {functions[name].size}" for name in names), sep="\n")
    return 1 if any(function.size > words.most for function in functions.values()) else 0


if __name__ == "__main__":
    sys.exit(main())
