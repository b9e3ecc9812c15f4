#!/usr/bin/env python3
"""Checks that the list of a source has its instructions, one behind the other, with one number for each name.

    listed.py [--list LIST] SOURCE...

Each source is assembled by md_prog, or LIST is the list that it wrote of the one that is named. Labels in front of
an instruction of the 68000 have to have its place. The status is 0 where all lists are right, else 1.
"""
import argparse
import pathlib
import re
import sys
import tempfile

import assembled

WORD = re.compile(r"[A-Za-z0-9_$]+|.")
NAME = re.compile(r"[A-Za-z][A-Za-z0-9_]{2,31}$")
KEPT = {"usp", "ccr", "ixh", "ixl", "iyh", "iyl", "none"}
DIRECTIVES = {"org", "cpu", "dc", "db"}


def lines_of(source):
    """The labels and the text of each line that is an instruction, and whether it is the 68000's. Labels right in front
    of it count as its own."""
    main, labels = True, []
    for line in source.split("\n"):
        label, colon, text = line.split(";")[0].strip(" \t").partition(":")
        if colon:
            labels.append(label)
        else:
            text = label
        text = text.strip(" \t")
        first = WORD.match(text)
        if not first:
            continue
        if first[0] == "cpu":
            main = text == "cpu 68000"
        if first[0] not in DIRECTIVES:
            yield labels, text, main
        labels = []


def number(word):
    return int(word[1:], 16) if re.fullmatch(r"\$[0-9A-Fa-f]{1,8}", word) else None


def alike(own, shown, values):
    """Whether two texts have the same words, a name standing for one number."""
    own, shown = WORD.findall(own), WORD.findall(shown)
    if len(own) != len(shown):
        return False
    for place, (word, there) in enumerate(zip(own, shown)):
        if place and NAME.match(word) and word not in KEPT:
            if values.setdefault(word, number(there)) != number(there):
                return False
        elif (word if number(word) is None else number(word)) != (there if number(there) is None else number(there)):
            return False
    return True


def is_right(source, listed):
    values, rows = {}, listed.splitlines()
    lines = list(lines_of(source))
    if len(lines) != len(rows):
        return False
    for (labels, _, main), row in zip(lines, rows):
        if main:
            values.update(dict.fromkeys(labels, int(row[:8], 16)))
    return all(row[8] == " " and alike(text, row[9:], values) for (_, text, _), row in zip(lines, rows))


def main():
    words = argparse.ArgumentParser()
    words.add_argument("--list")
    words.add_argument("sources", nargs="+")
    words = words.parse_args()
    wrong = False
    for source in words.sources:
        if words.list:
            listed = pathlib.Path(words.list).read_text()
        else:
            with tempfile.TemporaryDirectory() as folder:
                listed = assembled.list_of(source, pathlib.Path(folder))
        right = is_right(pathlib.Path(source).read_text(), listed)
        print(f"{source}: {len(listed.splitlines())} instructions: {'right' if right else 'WRONG'}")
        wrong = wrong or not right
    sys.exit(wrong)


if __name__ == "__main__":
    main()
