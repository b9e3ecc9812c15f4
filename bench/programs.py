"""Small programs over some of the crates here, built as `rt ci` builds a program, for the measurements.

The text of such a program stands in the measurement, since a file of Rattle may stand in crates/ alone. It
is built in a repository of its own: that takes a minute or a few where `rt ci` has run, more where the
crates below it are to be proved first, and up to 1 GB of disk.
"""
import pathlib
import resource
import shutil
import subprocess
import sys

TOP = pathlib.Path(__file__).resolve().parent.parent


def libraries(names):
    """The lines of crates.txt for these crates and all that they stand on, by the crates' names."""
    lines = {}
    for line in (TOP / "crates.txt").read_text().splitlines():
        name, colon, below = line.partition(":")
        if colon and not line.startswith("#"):
            lines[name.split()[0]] = (line, below.split())
    wanted, found = list(names), {}
    while wanted:
        name = wanted.pop()
        if name in lines and name not in found:
            found[name] = lines[name][0]
            wanted += lines[name][1]
    return found


def build(folder, name, source, below):
    """The program of this text over the crates `below`, built in `folder`."""
    if shutil.which("rt") is None:
        sys.exit("`rt`, the command of Rattle's toolchain, is not on the PATH")
    found = libraries(below)
    if not all((TOP / "crates" / crate / "out").exists() for crate in found):
        print("some crates are not proved here: `rt ci` has not run, and their proofs come first", flush=True)
    for crate in found:
        skip = shutil.ignore_patterns("must-fail")
        shutil.copytree(TOP / "crates" / crate, folder / "crates" / crate, ignore=skip)
    crate = folder / "crates" / name
    (crate / "src").mkdir(parents=True)
    (crate / "src" / "main.rt").write_text(source)
    lines = [*found.values(), f"{name}: {' '.join(below)}"]
    (folder / "crates.txt").write_text("".join(line + "\n" for line in lines))
    shutil.copy(TOP / "HANDLES", folder)
    run = subprocess.run(["rt", "run"], cwd=crate, capture_output=True, text=True)
    if run.returncode != 0:
        sys.exit(f"{run.stdout}{run.stderr}`rt run` did not build the program: run `rt ci` first")
    return crate / "out" / name


def seconds(command):
    """The least of the processor's seconds of five runs."""
    best = float("inf")
    for _ in range(5):
        before = resource.getrusage(resource.RUSAGE_CHILDREN).ru_utime
        subprocess.run(command, check=True, stdout=subprocess.DEVNULL)
        best = min(best, resource.getrusage(resource.RUSAGE_CHILDREN).ru_utime - before)
    return best
