"""What the tests of the examples' scripts share. Expected values are worked out by hand from the formats."""
import pathlib
import subprocess
import sys
import tempfile
import unittest

TESTS = pathlib.Path(__file__).resolve().parent
EXAMPLES = TESTS.parent
BENCH = EXAMPLES.parent / "bench"
PROGRAM = EXAMPLES.parent / "crates" / "md_prog" / "out" / "md_prog"
sys.path.insert(0, str(EXAMPLES))
sys.path.insert(0, str(BENCH))

import frames  # noqa: E402

if not PROGRAM.exists():
    print(f"{PROGRAM} is missing: run `rt ci` first", file=sys.stderr)
    sys.exit(2)


class Case(unittest.TestCase):
    """A test with a folder of its own."""

    def setUp(self):
        folder = tempfile.TemporaryDirectory()
        self.addCleanup(folder.cleanup)
        self.folder = pathlib.Path(folder.name)

    def script(self, name, *words, status=0, data=None):
        """What a script prints, on one or the other stream by its status; a fault is one line."""
        command = [sys.executable, EXAMPLES / name, *words]
        done = subprocess.run(command, input=data, capture_output=True, cwd=self.folder)
        self.assertEqual(done.returncode, status, done.stderr.decode())
        if status == 2:
            self.assertEqual(done.stderr.count(b"\n"), 1, done.stderr.decode())
            return done.stderr.decode()
        return done.stdout.decode()

    def run_program(self, *words):
        """Runs md_prog in the folder, to a good end."""
        done = subprocess.run([PROGRAM, *map(str, words)], capture_output=True, text=True, cwd=self.folder)
        self.assertEqual(done.returncode, 0, done.stdout)
        return done.stdout

    def assembled(self, source):
        """The name of the image of a source."""
        image = self.folder / f"{source.stem}.bin"
        self.run_program("asm", source, image)
        return image

    def cartridges(self):
        """Images of a source here, of two of bench/frames.py and of two examples, by name."""
        sources = [TESTS / "song.asm", EXAMPLES / "show" / "show.asm", EXAMPLES / "chord" / "chord.asm"]
        for name, text in (("busy", frames.BUSY), ("transfer", frames.TRANSFER)):
            sources.append(self.folder / f"{name}.asm")
            sources[-1].write_text(text)
        return {source.stem: self.assembled(source) for source in sources}

    def bytes_of(self, name):
        return (self.folder / name).read_bytes()
