#!/usr/bin/env python3
"""Makes docs/DEFINITIONS.md, the map of the definitions, of the comments in specs/.

    bench/definitions.py            writes the page
    bench/definitions.py --check    tells whether the page is up to date, by its status

Crates come in the order and the groups of crates.txt. A line is a file of specs/: what its first comment says,
and the public definitions in it. A file that has other files below it alone is left out.
"""
import pathlib
import re
import sys

TOP = pathlib.Path(__file__).resolve().parent.parent
PAGE = TOP / "docs/DEFINITIONS.md"
HEAD = """# Definitions

What the promises speak in: the files of definitions, crate by crate, with what each says of itself and the names
that it defines. `bench/definitions.py` makes this page of the comments in `specs/`. Where no source is named, a
definition is this project's own choice.
"""
DEFINED = re.compile(r"^(?:(?:abbrev|unfoldable|opaque) )?pub (?:record |data )?([\w◌'-]+)", re.M)


def groups():
    """The groups of crates.txt, each with its crates."""
    found = []
    for line in (TOP / "crates.txt").read_text().splitlines():
        if heading := re.fullmatch(r"# (.+)", line):
            found.append((heading[1], []))
        elif ":" in line and found:
            found[-1][1].append(line.split(":")[0].split()[0])
    return found


def comment_of(text):
    """The first comment of a file, as one line."""
    lines = []
    for line in text.splitlines():
        if not line.startswith("--"):
            break
        lines.append(line.lstrip("- ").strip())
    return " ".join(lines).strip()


def row(crate, file):
    text = file.read_text()
    names = [name for name in DEFINED.findall(text) if name not in ("mod", "use")]
    if not names:
        return None
    said = comment_of(text) or "See its definitions."
    listed = ", ".join(f"`{name}`" for name in dict.fromkeys(names))
    return f"- `{file.relative_to(TOP / 'crates' / crate / 'specs').with_suffix('')}`: {said} {listed}."


def page():
    parts = [HEAD]
    for heading, crates in groups():
        rows = {}
        for crate in crates:
            files = sorted((TOP / "crates" / crate / "specs").rglob("*.antt"))
            rows[crate] = [line for file in files if file.name != "Lib.antt" and (line := row(crate, file))]
        if any(rows.values()):
            parts.append(f"\n## {heading[0].upper()}{heading[1:]}\n")
        for crate, lines in rows.items():
            if lines:
                parts.append(f"\n### {crate}\n\n" + "\n".join(lines) + "\n")
    return "".join(parts)


def main():
    text = page()
    if sys.argv[1:] == ["--check"]:
        sys.exit(0 if PAGE.read_text() == text else f"{PAGE.relative_to(TOP)} is not up to date: run bench/definitions.py")
    PAGE.write_text(text)


if __name__ == "__main__":
    main()
