#!/usr/bin/env python3
"""Refuses each request for memory in turn, of every command that makes one, with the program that `rt ci` has built.

    bench/requests.py [COMMAND...]

The commands, all if none is named: run, resume, demo, debug, rollback, asm, vgm, play. A library that is put before the
C library's refuses the request of one number, 0 first, and no other, until a command ends as it does where none is
refused. Then each request before that one was refused alone, and must have ended with status 10 and its line, for `debug`
behind the replies to the lines that were obeyed; with outputs that are as they were, or are begun and empty; and with
inputs that have not changed.

The C compiler `cc` is needed. Each command prints how many requests it made and what was wrong. The status is 0 where
nothing was, 1 where something was, and 2 where the compiler or the program is missing.
"""
import argparse
import os
import pathlib
import shutil
import subprocess
import sys
import tempfile

import expected

TOP = pathlib.Path(__file__).resolve().parent.parent
PROGRAM = TOP / "crates" / "md_prog" / "out" / "md_prog"
FRAME = expected.FRAME
LIBRARY = r"""
#define _GNU_SOURCE
#include <dlfcn.h>
#include <stddef.h>
#include <stdlib.h>
static long next_request, refused = -1;
__attribute__((constructor)) static void begin(void) {
  const char *number = getenv("REFUSED_REQUEST");
  next_request = 0;
  if (number) refused = atol(number);
}
static int is_refused(void) { return next_request++ == refused; }
void *malloc(size_t size) {
  static void *(*real)(size_t);
  if (!real) real = dlsym(RTLD_NEXT, "malloc");
  return is_refused() ? NULL : real(size);
}
void *realloc(void *old, size_t size) {
  static void *(*real)(void *, size_t);
  if (!real) real = dlsym(RTLD_NEXT, "realloc");
  return is_refused() ? NULL : real(old, size);
}
"""
REFUSED = b"refused: memory\n"
OLD = b"what stood here"
COMMANDS = {
    "run": ("run game.bin --in pads --cycles 1792080 --frames f --sound s --journal j --save t", "fsjt"),
    "resume": ("run game.bin --load old.mds --cycles 1792080 --frames f --sound s --journal j --save t", "fsjt"),
    "demo": ("demo 7 --cycles 1792080 --workers 1", ""),
    "debug": ("debug game.bin script", ""),
    "rollback": ("rollback game.bin inputs --window 4", ""),
    "asm": ("asm source f --list s", "fs"),
    "vgm": ("vgm old.jnl f", "f"),
    "play": ("play old.vgm f", "f"),
}


def run(folder, words, **environment):
    """Runs the program in a folder; answers its status and its text."""
    done = subprocess.run(
        [PROGRAM, *words.split()],
        cwd=folder,
        env={**os.environ, **environment},
        stdout=subprocess.PIPE,
        stderr=subprocess.STDOUT,
        timeout=120,
    )
    return done.returncode, done.stdout


def prepare(folder):
    """Makes the inputs of all commands."""
    shutil.copy(TOP / "examples" / "show" / "show.asm", folder / "source")
    run(folder, "asm source game.bin")
    (folder / "pads").write_bytes(b"MDREC001" + (1).to_bytes(4, "big") + bytes([0, 16, 0, 0]))
    run(folder, f"run game.bin --cycles {FRAME} --save old.mds --journal old.jnl")
    run(folder, "vgm old.jnl old.vgm")
    (folder / "script").write_bytes(b"step 1\nregs\nreport\nrun 2000\nmem ff0000 8\ndis 200 2\nback 3\nback 9\n")
    (folder / "inputs").write_bytes(b"a\na\nl 0 1\nr 0 2\nl 1 4\nr 1 8\na\n")


def place(folder, outputs):
    """Puts something in the place of each output."""
    for name in outputs:
        (folder / name).write_bytes(OLD)


def contents(folder):
    """All files of the folder."""
    return {path.name: path.read_bytes() for path in folder.iterdir() if path.is_file()}


def files_wrong(found, whole, outputs):
    """What is wrong with the files behind a refusal, or nothing."""
    if any(found[name] != whole[name] for name in whole if name not in outputs):
        return "an input has changed"
    if all(found[name] in (OLD, b"") for name in outputs):
        return ""
    return "outputs that are neither as they were nor empty"


def answer_wrong(command, status, text, whole):
    """What is wrong with the answer to a refusal, or nothing."""
    replies = text.removesuffix(REFUSED)
    is_front = command == "debug" and whole.startswith(replies)
    if status == 10 and text.endswith(REFUSED) and (not replies or is_front):
        return ""
    return f"status {status} with {text!r}"


def refuse_each(folder, command, library):
    """Refuses each request of a command: how many there are, and what was wrong."""
    words, outputs = COMMANDS[command]
    place(folder, outputs)
    answer = run(folder, words)
    whole, count, faults = contents(folder), 0, []
    while True:
        place(folder, outputs)
        found = run(folder, words, LD_PRELOAD=str(library), REFUSED_REQUEST=str(count))
        if found == answer and contents(folder) == whole:
            return count, faults
        fault = answer_wrong(command, *found, answer[1]) or files_wrong(contents(folder), whole, outputs)
        faults += [f"{command}: request {count}: {fault}"] if fault else []
        count += 1


def build(folder):
    """The library that refuses a request."""
    source, library = folder / "refuse.c", folder / "refuse.so"
    source.write_text(LIBRARY)
    subprocess.run(["cc", "-O1", "-shared", "-fPIC", "-o", library, source, "-ldl"], check=True)
    return library


def main():
    parser = argparse.ArgumentParser(description=__doc__, formatter_class=argparse.RawTextHelpFormatter)
    parser.add_argument("commands", nargs="*", metavar="COMMAND", choices=[*COMMANDS, []])
    words = parser.parse_args()
    if not PROGRAM.exists() or not shutil.which("cc"):
        missing = "cc" if PROGRAM.exists() else f"{PROGRAM}: run `rt ci` first"
        print(f"requests.py: missing: {missing}", file=sys.stderr)
        return 2
    wrong = 0
    for command in words.commands or COMMANDS:
        with tempfile.TemporaryDirectory() as made, tempfile.TemporaryDirectory() as name:
            folder = pathlib.Path(name)
            prepare(folder)
            count, faults = refuse_each(folder, command, build(pathlib.Path(made)))
        print(f"{command}: {count} requests, {len(faults)} wrong", *faults[:20], sep="\n", flush=True)
        wrong += len(faults)
    return 1 if wrong else 0


if __name__ == "__main__":
    sys.exit(main())
