#!/usr/bin/env python3
"""Tries mutants that `rt ci` leaves out: the prover has to refuse each.

    bench/mutants.py [CRATE..]     those of these crates, or of all that have some

`rt ci` tries the mutants of each crate's must-fail/, those of the bodies that the emulator must not have above all. A
mutant costs a check of its crate and more, so further ones are in bench/mutants/CRATE/, and this script tries them, on
a copy of the repository in which they are in place of the others. The libraries below a crate are proved where no earlier run
has proved the same text. The last line tells how many were refused; the status is 1 where one was not.
"""
import pathlib
import shutil
import subprocess
import sys
import tempfile

TOP = pathlib.Path(__file__).resolve().parent.parent
MUTANTS = TOP / "bench" / "mutants"


def main():
    names = sys.argv[1:] or sorted(folder.name for folder in MUTANTS.iterdir())
    if missing := [name for name in names if not (MUTANTS / name).is_dir()]:
        sys.exit(f"no mutants of {', '.join(missing)} in bench/mutants")
    wanted = sum(len(list((MUTANTS / name).glob("*.edit"))) for name in names)
    with tempfile.TemporaryDirectory() as room:
        copy = pathlib.Path(room)
        shutil.copytree(TOP / "crates", copy / "crates", ignore=shutil.ignore_patterns("out", "must-fail"))
        for file in ("crates.txt", "HANDLES"):
            shutil.copy(TOP / file, copy / file)
        for name in names:
            shutil.copytree(MUTANTS / name, copy / "crates" / name / "must-fail")
        done = subprocess.run(["rt", "must-fail", *names], cwd=copy, stdout=subprocess.PIPE, stderr=subprocess.STDOUT, text=True)
    print(done.stdout, end="")
    refused = done.stdout.count(": refused, as it must be")
    print(f"{refused} of {wanted} mutants refused")
    sys.exit(refused != wanted)


if __name__ == "__main__":
    main()
