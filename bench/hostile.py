#!/usr/bin/env python3
"""Hostile cartridges, recordings and states, stores and streams that fail, and want of memory, tried with
the program that `rt ci` has built.

    bench/hostile.py [--step STEP] [TABLE...]

The tables, all if none is named:

    cartridges  32 of random bytes with a mark, and 32 more with vectors at which a program begins, a frame
                each: all run to its end
    prefixes    of a recording each proper prefix, of a state those of a few lengths and of each page: each
                is refused at its length
    bytes       each STEP-th byte of a busy state changed, 997 if not given: refused at a place, or run for
                a frame (all of them, with a STEP of 1, take hours)
    forged      a state whose video memories and Z80's RAM are random: 1 to 5 workers write the same files
    cuts        a demonstration run cut at each of 400 cycles, and one within an instruction's accesses: both
                parts write what it writes in one
    stores      inputs and outputs that are missing, folders, not allowed, full, pipes that end, files that
                shrink; output that is closed, full or a pipe that ends: each ends with its status
    memory      a run from a saved state within more and more memory, page by page: status 10 and no changed
                file, or the whole run
    space       the same within more and more address space, from the least within which the system's loader
                can start the program
    stack       every command with a stack of 128 KiB, and of 56 KiB: each ends as with one that is not bounded
    session     a session of the debugger within more and more memory: a front part of its replies and
                status 10, or all of them and 15 at its last line; the cartridge and the script stay

Each prints how many cases it tried and what was wrong. The status is 0 where nothing was, else 1.
"""
import argparse
import contextlib
import os
import pathlib
import resource
import signal
import subprocess
import sys
import tempfile
import threading

import expected
import states

TOP = pathlib.Path(__file__).resolve().parent.parent
PROGRAM = TOP / "crates" / "md_prog" / "out" / "md_prog"
FRAME = expected.FRAME
PAGE = 4_096
NOBODY = 65_534
# Where a state has the Z80's RAM and the VDP's memories, and the bits that each word of these may have.
Z80_RAM, VRAM, CRAM, VSRAM = (65_826, 8_192), (74_044, 65_536), (139_580, 64), (139_708, 40)
CRAM_BITS, VSRAM_BITS = 0x0EEE, 0x07FF


class Lcg64Xsh32:
    """The generator PCG XSH RR 64/32 of a state and a stream, as a stream of words."""

    def __init__(self, state, stream):
        self.step = (stream << 1 | 1) % 2**64
        self.state = (state + self.step) % 2**64
        self.advance()

    def advance(self):
        self.state = (self.state * 6_364_136_223_846_793_005 + self.step) % 2**64

    def next(self):
        state = self.state
        self.advance()
        turn, word = state >> 59, (state >> 18 ^ state) >> 27 & 0xFFFFFFFF
        return (word >> turn | word << (32 - turn)) & 0xFFFFFFFF

    def bytes(self, count):
        return b"".join(self.next().to_bytes(4, "little") for _ in range(-(-count // 4)))[:count]


def run(folder, *words, **more):
    """Runs the program in a folder; answers its status and its text."""
    more = {"stdout": subprocess.PIPE, "stderr": subprocess.STDOUT, "timeout": 120, **more}
    done = subprocess.run([PROGRAM, *map(str, words)], cwd=folder, **more)
    return done.returncode, (done.stdout or b"").decode(errors="replace")


def build(example, image):
    source = TOP / "examples" / example / f"{example}.asm"
    subprocess.run([PROGRAM, "asm", source, image], check=True, stdout=subprocess.DEVNULL)


@contextlib.contextmanager
def folder_of(example):
    """A folder in which an example is assembled as game.bin. Without the program that `rt ci` builds all ends."""
    if not PROGRAM.exists():
        sys.exit(f"{PROGRAM} is missing: run `rt ci` first")
    with tempfile.TemporaryDirectory() as name:
        folder = pathlib.Path(name)
        build(example, folder / "game.bin")
        yield folder


def save(folder, cycle):
    """Saves a state of examples/show, the folder's game.bin, as old.mds."""
    build("show", folder / "game.bin")
    run(folder, "run", "game.bin", "--cycles", cycle, "--save", "old.mds")
    return (folder / "old.mds").read_bytes()


def random_image(number, has_vectors):
    """A cartridge of random bytes with a mark."""
    image = bytearray(Lcg64Xsh32(number, 1).bytes(65_536))
    image[0x100:0x104] = b"SEGA"
    if has_vectors:
        image[:8] = bytes.fromhex("00fff000 00000200")
    return bytes(image)


def cartridges(folder, step):
    """Random cartridges run for a frame."""
    for number in range(32):
        for has_vectors in (False, True):
            (folder / "game.bin").write_bytes(random_image(number, has_vectors))
            words = ["run", "game.bin", "--cycles", FRAME, "--frames", "f", "--sound", "s", "--journal", "j", "--save", "t"]
            answer = expected.answer_of([str(word).encode() for word in words], {b"game.bin": random_image(number, has_vectors)})
            status, text = run(folder, *words)
            outputs = {key: (folder / answer.run[key].decode()).read_bytes() for key in expected.OUTPUTS}
            yield f"cartridge {number}", expected.wrong(answer, status, text.encode(), outputs)


def differs(found, wanted):
    """What is wrong where one answer was found and another is wanted, or nothing."""
    return "" if found == wanted else f"{found} in place of {wanted}"


def prefixes(folder, step):
    """Recordings and states that end too early."""
    state = save(folder, 20 * FRAME + 12_345)
    recording = b"MDREC001" + bytes.fromhex("00000002 0080 0000 0041 0010")
    for length in range(len(recording)):
        (folder / "play.rec").write_bytes(recording[:length])
        found = run(folder, "run", "game.bin", "--cycles", "1", "--in", "play.rec")
        yield f"recording of {length}", differs(found, (6, f"refused: recording at {length}\n"))
    for length in sorted({0, 1, 7, 8, 47, 48, len(state) - 1, *range(0, len(state), PAGE)}):
        (folder / "cut.mds").write_bytes(state[:length])
        found = run(folder, "run", "game.bin", "--cycles", 30 * FRAME, "--load", "cut.mds")
        yield f"state of {length}", differs(found, (7, f"refused: state at {length}\n"))


def changed(folder, step):
    """States with a changed byte."""
    at = 20 * FRAME + 12_345
    state = save(folder, at)
    for place in range(0, len(state), step):
        for bits in (0x01, 0xFF):
            data = bytearray(state)
            data[place] ^= bits
            (folder / "changed.mds").write_bytes(data)
            found = states.answer(folder / "game.bin", folder / "changed.mds", at, folder)
            is_right = isinstance(found, int) or found in ("run", "behind") or found == "other" and 8 <= place < 40
            yield f"byte {place} changed by {bits:02x}", "" if is_right else str(found)


def masked(words, count, bits):
    """So many random words of these bits alone."""
    return b"".join((words.next() & bits).to_bytes(2, "big") for _ in range(count))


def forged(folder, step):
    """A state with random memories, by 1 to 5 workers."""
    data = bytearray(save(folder, 20 * FRAME))
    words = Lcg64Xsh32(5, 2)
    pieces = [(Z80_RAM[0], words.bytes(Z80_RAM[1])), (VRAM[0], words.bytes(VRAM[1]))]
    pieces += [(CRAM[0], masked(words, CRAM[1], CRAM_BITS)), (VSRAM[0], masked(words, VSRAM[1], VSRAM_BITS))]
    for place, piece in pieces:
        data[place : place + len(piece)] = piece
    (folder / "forged.mds").write_bytes(data)
    outputs = []
    for workers in range(1, 6):
        words = ["--frames", "f", "--sound", "s", "--journal", "j", "--save", "t", "--workers", workers]
        status, text = run(folder, "run", "game.bin", "--cycles", 21 * FRAME, "--load", "forged.mds", *words)
        outputs.append([text, *((folder / name).read_bytes() for name in "fsjt")])
        fault = differs(status, 0) or ("" if outputs[-1] == outputs[0] else "other files than one worker")
        yield f"{workers} workers", fault


# What stands at 200h in a demonstration cartridge, and at 1C0h in one that writes 16 registers by MOVEM.L from
# 252 on, to the Z80's RAM or the VDP's ports.
DEMO = bytes.fromhex(
    "46fc2700 41f900c00004 43f900c00000 45f900001000 30bc8f02 30bc8174 20bc40000000 303c7fff 329a 51c8fffc"
    "20bcc0000000 303c003f 329a 51c8fffc 13d200c00011 b5fc000e0000 65d2 45f900001000 60ca"
)
STORING = "41f900a11100 30bc0100 43f900{}0000 48d1ffff 60fe"


def demo_image(number):
    """The demonstration cartridge of a number."""
    head = bytearray(4_096)
    head[:256] = bytes.fromhex("00fff000 00000200" + 62 * "00000280")
    head[0x100:0x104] = b"SEGA"
    head[0x200 : 0x200 + len(DEMO)] = DEMO
    head[0x280:0x282] = bytes.fromhex("4e73")
    words = Lcg64Xsh32(number, 0)
    return bytes(head) + b"".join(words.next().to_bytes(4, "big") for _ in range(261_120))


def storing_image(high):
    """A cartridge that writes 16 registers to an address with this highest byte."""
    image = bytearray(512)
    image[:8] = bytes.fromhex("00fff000 000001c0")
    image[0x100:0x104] = b"SEGA"
    code = bytes.fromhex(STORING.format(high))
    image[0x1C0 : 0x1C0 + len(code)] = code
    return bytes(image)


def written(folder, cycle, *words):
    """The frames, the pairs, the entries and the state that a run writes, or its answer where it ends with
    another status than 0."""
    outputs = ("--frames", "f", "--sound", "s", "--journal", "j", "--save", "t")
    found = run(folder, "run", "game.bin", "--cycles", cycle, *outputs, *words)
    heads = {"f": 0, "s": 44, "j": 0, "t": 0}
    return [(folder / name).read_bytes()[head:] for name, head in heads.items()] if found[0] == 0 else found


def cut_wrong(folder, cycle, end, whole):
    """What is wrong with the parts of a run that is cut at a cycle, or nothing."""
    first = written(folder, cycle)
    if isinstance(first, tuple):
        return f"the first part ends with {first}"
    (folder / "t").rename(folder / "cut.mds")
    rest = written(folder, end, "--load", "cut.mds")
    if isinstance(rest, tuple):
        return f"the rest ends with {rest}"
    is_joined = all(front + back == both for front, back, both in zip(first[:3], rest[:3], whole[:3]))
    return "" if is_joined and rest[3] == whole[3] else "another rest"


def cuts(folder, step):
    """Runs that are cut and go on."""
    images = [(demo_image(7), 620_000, range(600_000, 600_400))]
    images += [(storing_image(high), FRAME, range(240, 1_300)) for high in ("a0", "c0")]
    for image, end, cycles in images:
        (folder / "game.bin").write_bytes(image)
        whole = written(folder, end)
        for cycle in cycles:
            yield f"{len(image)} bytes, cycle {cycle}", cut_wrong(folder, cycle, end, whole)


RUN = ("run", "game.bin", "--cycles", 2 * FRAME)


def not_allowed():
    """How to run as somebody who may not read or write a file of mode 0."""
    return {"user": NOBODY, "group": NOBODY, "extra_groups": []} if os.geteuid() == 0 else {}


def inputs(folder):
    """Inputs that cannot be read."""
    (folder / "folder").mkdir()
    (folder / "locked").write_bytes(b"")
    (folder / "locked").chmod(0)
    for name in ("missing", "folder", "locked"):
        wanted = (3, f"fault: reading {name}\n")
        yield f"cartridge {name}", differs(run(folder, "run", name, "--cycles", 1, **not_allowed()), wanted)
        yield f"info {name}", differs(run(folder, "info", name, **not_allowed()), wanted)
        for option in ("--in", "--load"):
            yield f"{option} {name}", differs(run(folder, *RUN, option, name, **not_allowed()), wanted)


def outputs(folder):
    """Outputs that cannot be made or written."""
    for name in ("missing/out", "folder", "locked", "/dev/full"):
        for option in ("--frames", "--sound", "--journal", "--save"):
            found = run(folder, *RUN, option, name, **not_allowed())
            yield f"{option} {name}", differs(found, (4, f"fault: writing {name}\n"))


def ended_pipe():
    """The writing end of a pipe whose reader is gone."""
    reading, writing = os.pipe()
    os.close(reading)
    return writing


def streams(folder):
    """Standard output that is full, closed, or a pipe without reader."""
    kinds = [("full", lambda: os.open("/dev/full", os.O_WRONLY), None), ("a pipe that ended", ended_pipe, None)]
    kinds.append(("closed", lambda: os.open(os.devnull, os.O_WRONLY), lambda: os.close(1)))
    for name, opened, before in kinds:
        for words, wanted in (((*RUN, "--save", "t"), 13), (("run",), 2), (("info", "game.bin"), 13), (("info", "missing"), 3)):
            stream = opened()
            status, _ = run(folder, *words, stdout=stream, stderr=subprocess.DEVNULL, preexec_fn=before)
            os.close(stream)
            yield f"output {name}, {' '.join(map(str, words[:2]))}", differs(status, wanted)
        size = (folder / "t").stat().st_size
        yield f"output {name}, the state", differs(size, expected.STATE_SIZE)


def descriptors(folder):
    """A run with standard input or the stream of errors closed, which it does not use."""
    for number, name in ((0, "input"), (2, "errors")):
        status, text = run(folder, *RUN, "--save", "t", preexec_fn=lambda: os.close(number))
        fault = differs(status, 0) or ("" if text.startswith("cycles 0 to ") else f"the text {text!r}")
        yield f"{name} closed", fault or differs((folder / "t").stat().st_size, expected.STATE_SIZE)


def limited(folder):
    """Outputs that come to the most bytes that a file may have: the system ends the run by a signal."""
    most = 40_000
    for option in ("--frames", "--journal", "--save"):
        bound = lambda: resource.setrlimit(resource.RLIMIT_FSIZE, (most, most))
        status, _ = run(folder, *RUN, option, "big", preexec_fn=bound)
        fault = differs(status, -signal.SIGXFSZ)
        yield f"{option} past the limit of a file", fault or differs((folder / "big").stat().st_size, most)


def read_some(path, count):
    """Reads a first part of a pipe and closes it."""
    with open(path, "rb", buffering=0) as pipe:
        pipe.read(count)


def pipes(folder):
    """Outputs that are pipes whose reader ends."""
    os.mkfifo(folder / "pipe")
    (folder / "pipe").chmod(0o666)
    for option in ("--frames", "--sound", "--journal", "--save"):
        reader = threading.Thread(target=read_some, args=(folder / "pipe", 40))
        reader.start()
        found = run(folder, "run", "game.bin", "--cycles", 120 * FRAME, option, "pipe")
        reader.join()
        yield f"{option} a pipe that ends", differs(found, (4, "fault: writing pipe\n"))


def shrink(path, data, ended):
    """Cuts a file and writes it again, over and over."""
    while not ended.is_set():
        os.truncate(path, len(data) // 3)
        os.truncate(path, 0)
        path.write_bytes(data)


def shrinking(folder):
    """Inputs that shrink while they are read: any status of the table, and no signal."""
    big = (folder / "game.bin").read_bytes().ljust(4_194_304, b"\0")
    (folder / "big.bin").write_bytes(big)
    run(folder, "run", "big.bin", "--cycles", 1, "--save", "one.mds")
    for name, words in (("big.bin", ()), ("one.mds", ("--load", "one.mds"))):
        data, ended = (folder / name).read_bytes(), threading.Event()
        thread = threading.Thread(target=shrink, args=(folder / name, data, ended))
        thread.start()
        for _ in range(100):
            status, text = run(folder, "run", "big.bin", "--cycles", 2, *words)
            yield f"{name} shrinks", "" if status in (0, 3, 5, 7, 8) else f"status {status} with {text!r}"
        ended.set()
        thread.join()
        (folder / name).write_bytes(data)


def spellings(folder):
    """One file by two names: the inputs are read before an output is begun."""
    plain = run(folder, *RUN, "--save", "plain")
    yield "a run", differs(plain[0], 0)
    image = (folder / "game.bin").read_bytes()
    found = run(folder, *RUN, "--save", "./game.bin")
    same = (folder / "game.bin").read_bytes() == (folder / "plain").read_bytes()
    yield "--save over the cartridge", differs(found, plain) or ("" if same else "another state")
    (folder / "game.bin").write_bytes(image)
    run(folder, "run", "game.bin", "--cycles", FRAME, "--save", "half")
    status, _ = run(folder, *RUN, "--load", "half", "--save", "./half")
    same = (folder / "half").read_bytes() == (folder / "plain").read_bytes()
    yield "--save over the state", differs(status, 0) or ("" if same else "another state")
    status, _ = run(folder, *RUN, "--frames", "both", "--sound", "./both", "--journal", ".//both")
    yield "three outputs in one file", differs(status, 0)


def stores(folder, step):
    """Stores and streams that fail."""
    save(folder, FRAME)
    folder.chmod(0o755)
    for part in (inputs, outputs, streams, descriptors, limited, pipes, shrinking, spellings):
        yield from part(folder)


def bounded(folder, kind, limit, *words):
    """Runs within so many bytes of memory or of address space."""
    return run(folder, *words, preexec_fn=lambda: resource.setrlimit(kind, (limit, limit)))


def least_limit(folder, kind, status, low, *words):
    """The least limit, a multiple of a page, at which the words end with this status."""
    high = 1 << 30
    while high - low > PAGE:
        middle = (low + high) // 2 // PAGE * PAGE
        low, high = (low, middle) if bounded(folder, kind, middle, *words)[0] == status else (middle, high)
    return high


def least_start(folder, kind):
    """The least limit, a multiple of a page, at which the system starts the program: it takes no word, or has no
    memory for one."""
    low, high = 0, least_limit(folder, kind, 2, 0, "run")
    while high - low > PAGE:
        middle = (low + high) // 2 // PAGE * PAGE
        low, high = (low, middle) if bounded(folder, kind, middle, "run")[0] in (2, 10) else (middle, high)
    return high


def memory_wrong(folder, status, text, whole):
    """What is wrong with a run within too little memory, or nothing."""
    made = {name: (folder / name).read_bytes() for name in "fsjt" if (folder / name).exists()}
    if status == 0:
        return "" if made == whole else "another whole run"
    if (status, text) != (10, "refused: memory\n"):
        return f"status {status} with {text!r}"
    return "" if not any(made.values()) else "files that are not empty"


def within(folder, kind):
    """A run from a saved state within more and more of what a limit bounds."""
    state = save(folder, FRAME)
    words = (*RUN, "--load", "old.mds", "--frames", "f", "--sound", "s", "--journal", "j", "--save", "t")
    run(folder, *words)
    whole = {name: (folder / name).read_bytes() for name in "fsjt"}
    low = least_start(folder, kind)
    high = least_limit(folder, kind, 0, low, *words) + 16 * PAGE
    for limit in range(low, high, PAGE):
        for name in "fsjt":
            (folder / name).unlink(missing_ok=True)
        fault = memory_wrong(folder, *bounded(folder, kind, limit, *words), whole)
        kept = (folder / "old.mds").read_bytes() == state
        yield f"{limit} bytes", fault or ("" if kept else "the state that is loaded has changed")


def memory(folder, step):
    """More and more memory; the stack is not bounded."""
    return within(folder, resource.RLIMIT_DATA)


def space(folder, step):
    """More and more address space."""
    return within(folder, resource.RLIMIT_AS)


EVERY = (
    ("asm", TOP / "examples" / "show" / "show.asm", "again.bin", "--list", "again.lst"),
    ("info", "game.bin"),
    (*RUN, "--save", "t", "--journal", "j"),
    (*RUN, "--workers", 5, "--frames", "f", "--sound", "s"),
    (*RUN, "--load", "old.mds", "--frames", "f", "--sound", "s", "--journal", "j", "--save", "t"),
    (*RUN, "--load", "old.mds", "--workers", 5, "--save", "t"),
    ("demo", 7, "--cycles", FRAME, "--workers", 1),
    ("demo", 7, "--cycles", FRAME, "--workers", 5, "--pal"),
    ("vgm", "j", "v"),
    ("play", "v", "w"),
    ("debug", "game.bin", "script"),
    ("rollback", "game.bin", "inputs", "--window", 16),
    ("rollback", "large.bin", "inputs", "--window", 16),
)


def stack(folder, step):
    """Every command with little stack."""
    save(folder, FRAME)
    (folder / "large.bin").write_bytes((folder / "game.bin").read_bytes().ljust(1 << 22, b"\0"))
    (folder / "script").write_bytes(f"run {FRAME}\nstep 3\nregs\n".encode())
    late = "".join(f"l {frame} 1\n" + (f"r {frame - 5} 8\n" if frame >= 5 else "") + "a\n" for frame in range(12))
    (folder / "inputs").write_bytes(late.encode())
    for words in EVERY:
        whole = run(folder, *words)
        yield f"no limit: {words[0]}", "" if whole[0] == 0 else f"status {whole[0]} with {whole[1]!r}"
        for limit in (128 << 10, 56 << 10):
            yield f"{limit} bytes: {words[0]}", differs(bounded(folder, resource.RLIMIT_STACK, limit, *words), whole)


SCRIPT = b"step 1\nregs\nback 5\n"


def session_wrong(found, whole):
    """What is wrong with a session within too little memory, or nothing."""
    status, text = found
    end = "refused: memory\n"
    is_front = status == 10 and text.endswith(end) and whole[1].startswith(text.removesuffix(end))
    return "" if found == whole or is_front else f"status {status} with {text!r}"


def session(folder, step):
    """A session of the debugger; the stack is not bounded."""
    build("show", folder / "game.bin")
    (folder / "script").write_bytes(SCRIPT)
    words, kind = ("debug", "game.bin", "script"), resource.RLIMIT_DATA
    inputs = {path.name: path.read_bytes() for path in folder.iterdir()}
    whole = run(folder, *words)
    is_whole = whole[0] == 15 and whole[1].endswith("refused: script line 3: not kept, oldest 0\n")
    yield "no limit", "" if is_whole else f"status {whole[0]} with {whole[1]!r}"
    low = least_limit(folder, kind, 2, 0, "run")
    high = least_limit(folder, kind, 15, low, *words) + 16 * PAGE
    for limit in range(low, high, PAGE):
        fault = session_wrong(bounded(folder, kind, limit, *words), whole)
        kept = {path.name: path.read_bytes() for path in folder.iterdir()} == inputs
        yield f"{limit} bytes", fault or ("" if kept else "other files")


TABLES = {
    "cartridges": cartridges,
    "prefixes": prefixes,
    "bytes": changed,
    "forged": forged,
    "cuts": cuts,
    "stores": stores,
    "memory": memory,
    "space": space,
    "stack": stack,
    "session": session,
}


def table_of(name, step):
    """Tries a table; prints its count and what was wrong, and tells whether nothing was."""
    count, faults = 0, []
    with tempfile.TemporaryDirectory() as folder:
        for case, fault in TABLES[name](pathlib.Path(folder), step):
            count += 1
            faults += [f"{name}: {case}: {fault}"] if fault else []
    print(f"{name}: {count} cases, {len(faults)} wrong", *faults[:20], sep="\n", flush=True)
    return not faults


def main():
    parser = argparse.ArgumentParser(description=__doc__, formatter_class=argparse.RawTextHelpFormatter)
    parser.add_argument("--step", type=int, default=997)
    parser.add_argument("tables", nargs="*", metavar="TABLE", choices=[*TABLES, []])
    words = parser.parse_args()
    if not PROGRAM.exists():
        sys.exit(f"{PROGRAM} is missing: run `rt ci` first")
    return 0 if all([table_of(name, words.step) for name in words.tables or TABLES]) else 1


if __name__ == "__main__":
    sys.exit(main())
