#!/usr/bin/env python3
"""Runs the command lines of docs/RECIPES.md as they stand there, and compares what they print.

    bench/recipes.py [--only HEADING]... [--seconds N] [--keep FOLDER] [PAGE]

PAGE is docs/RECIPES.md if not given. The form of such a page:

- A line that is indented by four spaces and begins with `$ ` is a command line. One bash runs all of them, one
  behind the other, at first in a folder that has all of the repository's top, as links, so that `../play` is no
  folder of the user's. Standard input is empty.
- A line that ends in a backslash goes on with the next one, and a here-document ends with its word.
- The further indented lines up to the next `$ ` are all that the line prints, on both streams: byte for byte, but
  for carriage returns in front of line feeds, and empty lines at the end. A status is told only by `echo $?`.
- Where something else is printed each time, three dots as a line stand for any lines, and as a word within a line
  for any text.
- A paragraph that begins with `Package` or `Packages` names, between backquotes up to its first full stop or colon,
  the Debian packages that the lines below it want, up to the next such paragraph or heading: those that run a script
  of $EX, or all of them where the word `all` stands there, too. Commands are looked for in any case.

A line is left out, with a line that says why, where the machine lacks a command of it or a package that it wants, and
where it names a file that a line left out would have made.

`--only` runs the lines above the first heading and those of the sections whose headings have the text; a section whose
files it takes is to be named, too. A line that takes more than N seconds, 900 if not given, ends the check. The folders
go at the end, or are left in FOLDER.

The status is 0 where all lines print what stands there, left out ones aside; 1 where one does not, and then each
such line is shown; 2 for wrong words, for a page that cannot be read, and where the program is not built.
"""
import argparse
import dataclasses
import difflib
import os
import pathlib
import re
import secrets
import selectors
import shlex
import signal
import subprocess
import sys
import tempfile
import time

TOP = pathlib.Path(__file__).resolve().parent.parent
PROGRAM = TOP / "crates" / "md_prog" / "out" / "md_prog"
HERE_DOCUMENT = re.compile(r"<<-?\s*['\"]?(\w+)")
PACKAGES = re.compile(r"Packages? ")
BEHIND = {"|", "||", "&&", ";", "&", "(", "do", "then", "else", "if", "while", "!", "time"}
NAME = re.compile(r"[A-Za-z_/.][\w.+/-]*")
ASSIGNMENT = re.compile(r"\w+=")
FILE = re.compile(r"[\w/-]+\.\w+")


class Wrong(Exception):
    """Why the words or the page are wrong."""


class Words(argparse.ArgumentParser):
    """Words whose faults are one line."""

    def error(self, message):
        raise Wrong(message)


class NoEnd(Exception):
    """What a line had printed when its time was over."""


@dataclasses.dataclass
class Line:
    """A command line: its place in the page, its text, what it prints there, and what is said of packages above it."""

    number: int
    text: str
    printed: list
    section: str
    packages: str


def goes_on(text):
    """Whether a command line has further lines in the page."""
    found = HERE_DOCUMENT.search(text.split("\n")[0])
    if found:
        return not text.endswith("\n" + found[1])
    return text.endswith("\\")


def wanted(line):
    """The packages that a line wants."""
    if re.search(r"\ball\b", line.packages) or any(token.startswith("$EX/") for token in tokens_of(line.text)):
        return re.findall(r"`([a-z0-9.+-]+)`", line.packages)
    return []


def trimmed(lines):
    """Lines without the empty ones at their end."""
    while lines and not lines[-1]:
        lines = lines[:-1]
    return lines


def lines_of(page):
    """The command lines of a page."""
    lines, section, packages = [], "", ""
    for number, row in enumerate(page.split("\n"), 1):
        if row.startswith("#"):
            section, packages = row.lstrip("# "), ""
        elif PACKAGES.match(row):
            packages = re.split(r"[.:](?:\s|$)", row)[0]
        elif lines and goes_on(lines[-1].text) and (row.startswith("    ") or not row):
            lines[-1].text += "\n" + row[4:]
        elif row.startswith("    $ "):
            lines.append(Line(number, row[6:], [], section, packages))
        elif lines and lines[-1].section == section and (row.startswith("    ") or not row):
            lines[-1].printed.append(row[4:])
    for line in lines:
        line.printed = trimmed(line.printed)
    return lines


class Shell:
    """A bash that runs one line after another and keeps folder, variables and jobs between them."""

    def __init__(self, folder, seconds):
        self.folder, self.seconds, self.mark = folder, seconds, secrets.token_hex(8)
        self.bash = subprocess.Popen(
            ["bash", "--noprofile", "--norc"],
            cwd=folder / "repo",
            stdin=subprocess.PIPE,
            stdout=subprocess.PIPE,
            stderr=subprocess.STDOUT,
            env={**os.environ, "LC_ALL": "C.UTF-8"},
            start_new_session=True,
        )

    def run(self, text):
        """What a line prints."""
        source = self.folder / "line.sh"
        source.write_text(text + "\n")
        told = f". {shlex.quote(str(source))} < /dev/null\nprintf '\\n%s\\n' {self.mark}\n"
        self.bash.stdin.write(told.encode())
        self.bash.stdin.flush()
        return self.printed()

    def printed(self):
        """All up to the mark."""
        end, data = f"\n{self.mark}\n".encode(), b""
        deadline = time.monotonic() + self.seconds
        with selectors.DefaultSelector() as selector:
            selector.register(self.bash.stdout, selectors.EVENT_READ)
            while not data.endswith(end):
                if not selector.select(max(0, deadline - time.monotonic())):
                    raise NoEnd(data.decode(errors="replace"))
                piece = os.read(self.bash.stdout.fileno(), 65_536)
                if not piece:
                    raise NoEnd(data.decode(errors="replace"))
                data += piece
        return data[: -len(end)].decode(errors="replace")

    def knows(self, word):
        return bool(self.run(f"type -t {shlex.quote(word)}").strip())

    def has_file(self, word):
        return self.run(f"test -e {shlex.quote(word)} && echo yes") == "yes\n"

    def end(self):
        """Ends the shell and what it left behind."""
        self.bash.stdin.close()
        os.killpg(self.bash.pid, signal.SIGTERM)
        self.bash.wait()


def tokens_of(text):
    """The words and signs of the first line of a command line."""
    parts = shlex.shlex(text.split("\n")[0], posix=True, punctuation_chars=True)
    parts.commenters, parts.wordchars = "", parts.wordchars + "$"
    try:
        return list(parts)
    except ValueError:
        return []


def commands_of(tokens):
    """The words of a line that name a command, those aside that it makes functions of."""
    first = True
    for token, after in zip(tokens, [*tokens[1:], ""]):
        if first and ASSIGNMENT.match(token):
            continue
        if first and NAME.fullmatch(token) and token not in BEHIND and after != "()":
            yield token
        first = token in BEHIND


def is_installed(package):
    try:
        told = subprocess.run(["dpkg-query", "-W", "-f", "${Status}", package], capture_output=True, text=True)
    except FileNotFoundError:
        return False
    return told.stdout.endswith(" installed")


def lacking(shell, line, unmade):
    """Why a line cannot be run here, or nothing."""
    for word in commands_of(tokens_of(line.text)):
        if not shell.knows(word):
            return f"no command {word}"
    for package in wanted(line):
        if not is_installed(package):
            return f"no package {package}"
    for name in FILE.findall(line.text):
        if name in unmade and not shell.has_file(name):
            return f"no file {name}"
    return ""


def pattern_of(row):
    """An expected line as a pattern, with words of three dots."""
    words = re.split(r"(?<!\S)\.\.\.(?!\S)", row)
    return re.compile(".*".join(re.escape(word) for word in words))


def are_alike(rows, found):
    """Whether lines are those that are expected, one for one."""
    return len(rows) == len(found) and all(pattern_of(row).fullmatch(line) for row, line in zip(rows, found))


def is_as_printed(rows, found):
    """Whether lines are those that are expected, with lines of three dots."""
    if "..." not in rows:
        return are_alike(rows, found)
    first, last = rows.index("..."), len(rows) - 1 - rows[::-1].index("...")
    head, tail = rows[:first], rows[last + 1 :]
    if len(found) < len(head) + len(tail) or not are_alike(head, found[: len(head)]):
        return False
    if not are_alike(tail, found[len(found) - len(tail) :]):
        return False
    return holds(rows[first + 1 : last], found[len(head) : len(found) - len(tail)])


def holds(rows, found):
    """Whether lines hold the expected ones, part by part between the lines of three dots, in order."""
    part = rows[: rows.index("...")] if "..." in rows else rows
    for at in range(len(found) - len(part) + 1):
        if are_alike(part, found[at : at + len(part)]):
            return "..." not in rows or holds(rows[len(part) + 1 :], found[at + len(part) :])
    return False


def show(line, found):
    """Shows a line whose output is another one."""
    print(f"line {line.number}: $ {line.text}")
    for row in list(difflib.unified_diff(line.printed, found, "expected", "printed", lineterm=""))[2:]:
        print(f"    {row}")


def check(shell, lines):
    """Runs all lines; answers how many are as printed, are left out, and differ."""
    counts, unmade = {"as printed": 0, "left out": 0, "differ": 0}, set()
    for line in lines:
        why = lacking(shell, line, unmade)
        if why:
            print(f"line {line.number}: left out, {why}: $ {line.text.split(chr(10))[0]}", flush=True)
            unmade.update(name for name in FILE.findall(line.text) if not shell.has_file(name))
            counts["left out"] += 1
            continue
        found = trimmed([row.removesuffix("\r") for row in shell.run(line.text).split("\n")])
        same = is_as_printed(line.printed, found)
        if not same:
            show(line, found)
        counts["as printed" if same else "differ"] += 1
    return counts


def chosen(lines, headings):
    """The lines of the sections that are asked for."""
    for heading in headings:
        if not any(heading in line.section for line in lines):
            raise Wrong(f"no section has {heading} in its heading")
    first = lines[0].section
    return [line for line in lines if not headings or line.section == first or any(h in line.section for h in headings)]


def prepare(folder):
    """Makes the folder in which the lines begin."""
    (folder / "repo").mkdir(parents=True)
    for entry in TOP.iterdir():
        (folder / "repo" / entry.name).symlink_to(entry)


def run_page(words, folder):
    """Runs the page's lines in a folder; tells whether none differs."""
    lines = lines_of(words.page.read_text())
    if not lines:
        raise Wrong(f"{words.page} has no command line")
    prepare(folder)
    shell = Shell(folder, words.seconds)
    try:
        counts = check(shell, chosen(lines, words.only))
    except NoEnd as had:
        print(f"no end after {words.seconds} seconds; printed were\n{had}")
        return False
    finally:
        shell.end()
    print(", ".join(f"{count} {what}" for what, count in counts.items()))
    return not counts["differ"]


def words_of(arguments):
    """The command line, read."""
    parser = Words(description=__doc__, formatter_class=argparse.RawTextHelpFormatter)
    parser.add_argument("--only", action="append", default=[], metavar="HEADING")
    parser.add_argument("--seconds", type=int, default=900, metavar="N")
    parser.add_argument("--keep", type=pathlib.Path, metavar="FOLDER")
    parser.add_argument("page", nargs="?", type=pathlib.Path, default=TOP / "docs" / "RECIPES.md", metavar="PAGE")
    return parser.parse_args(arguments)


def main():
    try:
        words = words_of(sys.argv[1:])
        if not PROGRAM.exists():
            raise Wrong(f"{PROGRAM} is missing: run `rt ci` first")
        if words.keep:
            return 0 if run_page(words, words.keep.resolve()) else 1
        with tempfile.TemporaryDirectory() as name:
            return 0 if run_page(words, pathlib.Path(name)) else 1
    except (Wrong, OSError, UnicodeDecodeError) as fault:
        print(f"{sys.argv[0]}: {fault}", file=sys.stderr)
        return 2


if __name__ == "__main__":
    sys.exit(main())
