#!/usr/bin/env python3
"""Processor seconds and peak memory of the checks, by crate.

    bench/check_time.py [--test] [NAME..]     each crate's check from nothing, all crates if none is named
    bench/check_time.py --modules NAME..      the same, with the seconds of the functions that take most of them
    bench/check_time.py --watch COMMAND..     a whole run, as of `rt ci --anew`, by crate and kind
    bench/check_time.py --log FILE            the sums of an earlier output of the first or the third
    bench/check_time.py --chain FILE          the longest chain of proofs of an earlier output, crate by crate

The first two work on a copy of the repository, so that they leave what is kept as it is; `--test` checks
each crate with its tests. The third looks four times a second at the processes of the run, and so
misses up to a quarter of a second of each; it gives the peak memory of the largest process of a kind in MB.
Its last line tells how much of the time in which processors were wanted the host gave to others. A busy
machine adds up to a fifth. Seconds of a host whose caches others fill count for less: there a check of much
memory was seen to take three times those of a quiet one, and one of little memory a quarter more.
"""
import collections
import os
import pathlib
import re
import resource
import shutil
import subprocess
import sys
import tempfile
import time

TOP = pathlib.Path(__file__).resolve().parent.parent
TICK = os.sysconf("SC_CLK_TCK")


def crates(top):
    """The libraries below each crate, in the order of crates.txt."""
    lines = (top / "crates.txt").read_text().splitlines()
    rows = [line.split("#")[0].split(":") for line in lines]
    return {row[0].split()[0]: row[1].split() for row in rows if len(row) == 2}


def spent():
    used = resource.getrusage(resource.RUSAGE_CHILDREN)
    return used.ru_utime + used.ru_stime


def run(folder, *words):
    """The processor seconds of a command in a crate's folder."""
    start = spent()
    done = subprocess.run(words, cwd=folder, stdout=subprocess.PIPE, stderr=subprocess.STDOUT, text=True)
    if done.returncode != 0:
        sys.exit(f"{folder.name}: {' '.join(words)}: status {done.returncode}\n{done.stdout[-2000:]}")
    return spent() - start


def renamed(top, crate, libraries):
    """The folder of a copy of a crate, under a name of which nothing is kept."""
    folder = top / "crates" / f"timed_{crate}"
    shutil.copytree(top / "crates" / crate, folder)
    for file in [*folder.rglob("*.rt"), *folder.rglob("*.antt")]:
        text = file.read_text()
        file.write_text(re.sub(rf"\bRattle\.{crate}\.", f"Rattle.timed_{crate}.", text))
    with open(top / "crates.txt", "a") as table:
        table.write(f"timed_{crate}: {' '.join(libraries)}\n")
    return folder


def measure(names, flags, modules):
    libraries = crates(TOP)
    for crate in names or libraries:
        with tempfile.TemporaryDirectory() as name:
            top = pathlib.Path(name)
            shutil.copytree(TOP / "crates", top / "crates", ignore=shutil.ignore_patterns("out"))
            for file in ("crates.txt", "HANDLES"):
                shutil.copy(TOP / file, top / file)
            folder = renamed(top, crate, libraries[crate])
            for library in libraries[crate]:
                if library in libraries:
                    run(top / "crates" / library, "rt", "lib")
            begin = time.time()
            yield crate, "check" + "".join(flags), run(folder, "rt", "check", "--jobs", "1", *flags), 0
            if modules:
                yield from functions(folder, crate, begin)


def functions(folder, crate, begin):
    """The seconds of each function's modules, which are checked one after the other: by the times of their files."""
    files = (folder / "out/incremental").rglob(f"Rattle-timed_{crate}*.oantt")
    ended = sorted((file.stat().st_mtime, file.name) for file in files)
    sums = collections.Counter()
    for (then, _), (now, name) in zip([(begin, ""), *ended], ended):
        path = name.removesuffix(".oantt").split(".")
        sums[".".join(path[1:-1]) or path[-1]] += now - then
    for path, seconds in sums.most_common(20):
        yield f"  {path}", "function", seconds, 0


def processes():
    """Of each process the parent, the start, the processor seconds, the words and the peak memory in MB."""
    found = {}
    for folder in pathlib.Path("/proc").glob("[0-9]*"):
        try:
            fields = (folder / "stat").read_text().rsplit(")", 1)[1].split()
            words = (folder / "cmdline").read_text().split("\0")
            peak = re.search(r"VmHWM:\s+(\d+)", (folder / "status").read_text())
        except (OSError, IndexError):
            continue
        seconds = (int(fields[11]) + int(fields[12])) / TICK
        found[int(folder.name)] = int(fields[1]), int(fields[19]), seconds, words, int(peak[1]) // 1024 if peak else 0
    return found


def below(top, found):
    """The processes that a process started, and those that they started."""
    ours = {top} & found.keys()
    while more := {pid for pid in found if found[pid][0] in ours} - ours:
        ours |= more
    return ours


def kind_of(words):
    if any("must-fail" in word or "rt-edit" in word for word in words):
        return "edit"
    return words[1] + ("--test" if "--test" in words else "")


def worked_and_stolen():
    """The seconds in which processors worked, of whatever process, and those that the host gave to others."""
    ticks = [int(word) for word in pathlib.Path("/proc/stat").read_text().split()[1:9]]
    user, nice, system, _idle, _iowait, irq, softirq, steal = (tick / TICK for tick in ticks)
    return user + nice + system + irq + softirq, steal


def watch(command):
    job = subprocess.Popen(command)
    seen = {}
    while job.poll() is None:
        found = processes()
        for pid in below(job.pid, found):
            _, start, seconds, words, peak = found[pid]
            if "--crate-name" in words:
                crate = words[words.index("--crate-name") + 1]
                seen[pid, start] = crate, kind_of(words), seconds, max(peak, seen.get((pid, start), (0,))[-1])
        time.sleep(0.25)
    sums, peaks = collections.Counter(), collections.Counter()
    for crate, kind, seconds, peak in seen.values():
        sums[crate, kind] += seconds
        peaks[crate, kind] = max(peaks[crate, kind], peak)
    for (crate, kind), seconds in sorted(sums.items()):
        yield crate, kind, seconds, peaks[crate, kind]


def read(file):
    for line in pathlib.Path(file).read_text().splitlines():
        if row := re.fullmatch(r"(\w+) +(\S+) +(\d+\.\d)(?: +(\d+) MB)?", line):
            if row[2] != "all":
                yield row[1], row[2], float(row[3]), int(row[4] or 0)


def chain(file):
    """Prints the chain of crates whose proofs wait for one another longest, with the seconds of each."""
    libraries, proofs = crates(TOP), collections.Counter()
    for crate, kind, seconds, _ in read(file):
        if kind in ("build", "check"):
            proofs[crate] += seconds
    ends = {}

    def end_of(crate):
        if crate not in ends:
            below = max((end_of(library) for library in libraries[crate] if library in libraries), default=(0, []))
            ends[crate] = below[0] + proofs[crate], [*below[1], crate]
        return ends[crate]

    _, longest = max(end_of(crate) for crate in libraries)
    for crate in longest:
        print(f"{crate:<16} {proofs[crate]:8.1f} {ends[crate][0]:8.1f}")


def main():
    words = sys.argv[1:]
    if words[:1] == ["--chain"]:
        chain(words[1])
        return
    if words[:1] == ["--log"]:
        rows = read(words[1])
    elif words[:1] == ["--watch"]:
        before = worked_and_stolen()
        rows = watch(words[1:])
    else:
        flags = [word for word in words if word.startswith("--") and word != "--modules"]
        rows = measure([word for word in words if not word.startswith("--")], flags, "--modules" in words)
    sums = collections.Counter()
    for crate, kind, seconds, peak in rows:
        print(f"{crate:<16} {kind:<14} {seconds:8.1f}" + (f" {peak:6} MB" if peak else ""), flush=True)
        if kind != "function":
            sums[crate] += seconds
    for crate, seconds in sorted(sums.items()):
        print(f"{crate:<16} {'all':<14} {seconds:8.1f}")
    print(f"{'all':<16} {'all':<14} {sum(sums.values()):8.1f}")
    if words[:1] == ["--watch"]:
        worked, stolen = (now - then for now, then in zip(worked_and_stolen(), before))
        print(f"stolen by the host: {stolen / max(worked + stolen, 1 / TICK):.0%} of the time wanted")


if __name__ == "__main__":
    main()
