"""What scripts here share: words are read and faults told in one line, with status 2."""
import argparse
import lzma
import os
import struct
import sys
import zipfile
import zlib

# What unpacking may raise of wrong bytes.
UNPACKING = (zipfile.BadZipFile, zlib.error, lzma.LZMAError, struct.error, NotImplementedError, RuntimeError)
UNPACKING += (EOFError, ValueError, KeyError, OverflowError, OSError)


class Wrong(Exception):
    """Why the words or the files are wrong."""


class Parser(argparse.ArgumentParser):
    """Reads words; what is wrong with them is one line."""

    def __init__(self, text):
        super().__init__(description=text, formatter_class=argparse.RawTextHelpFormatter)

    def error(self, message):
        self.exit(2, f"{self.prog}: {message}\n")


def told(fault):
    """A fault in words; that of a file with its name in front."""
    if isinstance(fault, OSError) and fault.filename is not None:
        return f"{fault.filename}: {fault.strerror}"
    return " ".join(str(fault).split())


def ending(main):
    """The status of a script: main's, or 2 behind the line of a fault. Who closes the output early is left alone."""
    try:
        status = main()
        sys.stdout.flush()
        return status or 0
    except BrokenPipeError:
        os.dup2(os.open(os.devnull, os.O_WRONLY), sys.stdout.fileno())
        return 0
    except (Wrong, OSError) as fault:
        print(f"{os.path.basename(sys.argv[0])}: {told(fault)}", file=sys.stderr)
        return 2


def number(text):
    """A cycle or a count: decimal digits, with commas between them where one likes."""
    digits = text.replace(",", "")
    if not (digits.isascii() and digits.isdecimal()):
        raise argparse.ArgumentTypeError(f"{text} is no number")
    return int(digits)
