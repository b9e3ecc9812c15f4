#!/usr/bin/env python3
"""Makes the manual page docs/md_prog.1 and the completion docs/md_prog.bash of what docs/MANUAL.md says.

    bench/manual_page.py [--check]

The page has the synopsis, the words and options, the statuses, and the tables of the assembler, the debugger and two
players; the completion has the command words and for each its options, as the synopsis has them. `--check` writes
nothing: it compares both files with what would be written, and tries the completion in bash for each command word.

The status is 0; with `--check` 1 where a file is out of date or the completion answers otherwise, each in a line; 2
where the words are wrong, or MANUAL.md cannot be read or has lost a part that is wanted.
"""
import argparse
import pathlib
import re
import subprocess
import sys

DOCS = pathlib.Path(__file__).resolve().parent.parent / "docs"
MANUAL, PAGE, COMPLETION = DOCS / "MANUAL.md", DOCS / "md_prog.1", DOCS / "md_prog.bash"
# headings of the page, and for each the section and the kinds of blocks that it takes, in their order
PARTS = [
    ("DESCRIPTION", "Commands", ["text"]),
    ("WORDS AND OPTIONS", "Commands", ["table", "list", "text"]),
    ("EXAMPLES", "Commands", ["code"]),
    ("EXIT STATUS", "Answers", ["text", "table", "text"]),
    ("ASSEMBLER", "Assembler", ["text", "text", "table", "text", "text", "table"]),
    ("DEBUGGER", "Debugger", ["text", "table", "text", "text", "table"]),
    ("TWO PLAYERS", "Two players", ["text", "table", "text", "text"]),
]
FRONT = '.\\" Made of docs/MANUAL.md by bench/manual_page.py.\n.TH MD_PROG 1 "" Bulamihe "Bulamihe"\n'
SHELL = """# Completion of md_prog for bash: `. md_prog.bash`. Made of docs/MANUAL.md by bench/manual_page.py.
_md_prog() {
    local word=${COMP_WORDS[COMP_CWORD]} before=${COMP_WORDS[COMP_CWORD - 1]} options values wanted=files other
    COMPREPLY=()
    if ((COMP_CWORD == 1)); then
        COMPREPLY=($(compgen -W '@COMMANDS@' -- "$word"))
        return
    fi
    # bash takes = for a word of its own
    [[ $word == = ]] && word=
    [[ $before == = ]] && before=${COMP_WORDS[COMP_CWORD - 2]}
    case ${COMP_WORDS[1]} in
@CASES@        *) return ;;
    esac
    for other in "${COMP_WORDS[@]:2:COMP_CWORD-2}"; do
        [[ $other == -- ]] && options=
        [[ $other == --* ]] && options=${options/ $other / }
    done
    case $before in
@VALUES@        *) [[ $word == -* ]] && values=$options wanted=values ;;
    esac
    case $wanted in
        values) COMPREPLY=($(compgen -W "$values" -- "$word")) ;;
        files)
            compopt -o filenames 2> /dev/null
            mapfile -t COMPREPLY < <(compgen -f -- "$word")
            ;;
    esac
}
complete -F _md_prog md_prog
"""
# prints, a line each, what the completion answers where a command word and a hyphen stand
TRIED = """. "$1"
shift
for command; do
    COMP_WORDS=(md_prog "$command" -) COMP_CWORD=2
    _md_prog
    printf '%s\\n' "${COMPREPLY[*]}"
done
COMP_WORDS=(md_prog '') COMP_CWORD=1
_md_prog
printf '%s\\n' "${COMPREPLY[*]}"
"""


class Wrong(Exception):
    """Why the words or the manual are wrong."""


class Words(argparse.ArgumentParser):
    """Words whose faults are one line."""

    def error(self, message):
        raise Wrong(message)


def kind_of(line):
    """What a line of a section belongs to."""
    if line.startswith("    "):
        return "code"
    if line.startswith("|"):
        return "table"
    return "list" if line.startswith("- ") else "text"


def blocks_of(manual, heading):
    """The blocks of a section, each with its kind and its lines."""
    found = re.search(rf"^## {re.escape(heading)}\n(.*?)(?=^## |\Z)", manual, re.MULTILINE | re.DOTALL)
    if not found:
        raise Wrong(f"{MANUAL} has no section {heading}")
    blocks, last = [], ""
    for line in found[1].split("\n"):
        kind = kind_of(line) if line else ""
        if kind and kind == last:
            blocks[-1][1].append(line)
        elif kind:
            blocks.append((kind, [line]))
        last = kind
    return blocks


def cells_of(line):
    return [cell.strip() for cell in line.strip()[1:-1].split("|")]


def rows_of(lines):
    """The cells of a table below its head."""
    return [cells_of(line) for line in lines[2:]]


def escaped(text):
    """Text for roff."""
    return text.replace("\\", "\\e").replace("-", "\\-").replace("'", "\\(aq").replace("`", "\\(ga")


def rich(text):
    """A text of the manual for roff: what stands between backquotes is bold."""
    parts = re.split(r"`([^`]*)`|\*\*(.+?)\*\*|(?<!\w)\*([^*]+)\*(?!\w)", text)
    out = []
    for place, part in enumerate(parts):
        if part:
            bold = {1: "\\fB", 2: "\\fB", 3: "\\fI"}.get(place % 4)
            out.append(f"{bold}{escaped(part)}\\fR" if bold else escaped(part))
    told = "".join(out)
    return "\\&" + told if told.startswith((".", "\\(aq")) else told


def table(lines):
    """A table for roff: what stands first in a row, and below it the others; a third one behind the head's word."""
    out, heads = "", cells_of(lines[0])
    for first, *others in rows_of(lines):
        if len(others) == 2 and not first.isdecimal():
            others[1] = f"{heads[2]}: {others[1]}"
        out += f".TP\n{rich(first)}\n" + ".br\n".join(f"{rich(cell)}\n" for cell in others if cell)
    return out


def block(kind, lines):
    """A block for roff."""
    if kind == "table":
        return table(lines)
    if kind == "code":
        return ".PP\n.nf\n.RS 4\n" + "".join(f"{escaped(line[4:])}\n" for line in lines) + ".RE\n.fi\n"
    if kind == "list":
        return "".join(f".IP \\(bu 2\n{rich(line[2:])}\n" for line in lines)
    return "".join(f".PP\n{rich(line)}\n" for line in lines)


def synopsis_of(manual):
    """The lines of the synopsis, each as its words."""
    kind, lines = blocks_of(manual, "Commands")[0]
    if kind != "code" or not all(line.split()[0] == "md_prog" for line in lines):
        raise Wrong(f"{MANUAL} does not begin with the commands")
    return [line.split() for line in lines]


def synopsis(lines):
    """The synopsis for roff: names of values in italics."""
    out = ""
    for words in lines:
        told = [re.sub(r"[A-Z]+", lambda name: f"\\fI{name[0]}\\fR", escaped(word)) for word in words[2:]]
        out += f".HP\n\\fBmd_prog {words[1]}\\fR {' '.join(told)}\n"
    return out


def page_of(manual):
    """The manual page."""
    out = FRONT + ".SH NAME\nmd_prog \\- emulates the Sega Mega Drive, and what goes with it\n"
    out += ".SH SYNOPSIS\n" + synopsis(synopsis_of(manual))
    blocks = {section: blocks_of(manual, section) for _, section, _ in PARTS}
    blocks["Commands"].pop(0)
    for heading, section, kinds in PARTS:
        out += f".SH {heading}\n"
        for kind in kinds:
            found = next((block for block in blocks[section] if block[0] == kind), None)
            if found is None:
                raise Wrong(f"{MANUAL}, {section}, has no further {kind}")
            blocks[section].remove(found)
            out += block(*found)
    out = re.sub(r"(\.SH .*\n)\.PP\n", r"\1", out)
    return out + ".SH SEE ALSO\ndocs/MANUAL.md, which has the formats of the files, and docs/RECIPES.md.\n"


def options_of(words):
    """The options of a line of the synopsis."""
    return re.findall(r"--\w+", " ".join(words))


def values_of(manual):
    """For each option that has a value, the words that may stand there; none where it is a file."""
    values = {}
    for word, what in rows_of(next(lines for kind, lines in blocks_of(manual, "Commands") if kind == "table")):
        found = re.fullmatch(r"`(--\w+) [A-Z]+`", word)
        if found and not what.startswith("the file"):
            numbers = re.search(r"\b(\d+) to (\d+)\b(?!,)", what)
            values[found[1]] = range(int(numbers[1]), int(numbers[2]) + 1) if numbers else ()
        elif found:
            values[found[1]] = None
    return values


def completion_of(manual):
    """The completion."""
    lines, values = synopsis_of(manual), values_of(manual)
    cases = ""
    for words in lines:
        files = [word for word in words[2:] if word.isupper() and word != "NUMBER" and not word.endswith("]")]
        of_options = {words[place + 1] for place, word in enumerate(words[:-1]) if word.startswith("--")}
        some = "" if set(files) - of_options else " wanted="
        cases += f"        {words[1]}) options=' {' '.join(options_of(words))} '{some} ;;\n"
    told = ""
    for option, those in values.items():
        if those is not None:
            told += f"        {option}) values='{' '.join(map(str, those))}' wanted=values ;;\n"
    names = [option for option, those in values.items() if those is None]
    told += f"        {' | '.join(names)}) wanted=files ;;\n"
    text = SHELL.replace("@COMMANDS@", " ".join(words[1] for words in lines))
    return text.replace("@CASES@", cases).replace("@VALUES@", told)


def wrong_answers(manual, completion):
    """The command words for which bash completes something else than the synopsis has."""
    lines = synopsis_of(manual)
    commands = [words[1] for words in lines]
    tried = ["bash", "--norc", "-c", TRIED, "bash", completion, *commands]
    answers = subprocess.run(tried, stdout=subprocess.PIPE, text=True, check=True).stdout.split("\n")
    wanted = [*(" ".join(options_of(words)) for words in lines), " ".join(commands)]
    return [name for name, one, other in zip([*commands, "no word"], answers, wanted) if one.split() != other.split()]


def check(manual, made):
    """Prints what is out of date; tells whether nothing is."""
    faults = [f"{path} is out of date" for path, text in made.items() if not path.exists() or path.read_text() != text]
    if COMPLETION.exists():
        faults += [f"{COMPLETION} answers otherwise behind {name}" for name in wrong_answers(manual, COMPLETION)]
    for fault in faults:
        print(fault)
    return not faults


def main():
    try:
        parser = Words(description=__doc__, formatter_class=argparse.RawTextHelpFormatter)
        parser.add_argument("--check", action="store_true")
        words = parser.parse_args()
        manual = MANUAL.read_text()
        made = {PAGE: page_of(manual), COMPLETION: completion_of(manual)}
        if words.check:
            return 0 if check(manual, made) else 1
        for path, text in made.items():
            path.write_text(text)
    except (Wrong, OSError, subprocess.CalledProcessError) as fault:
        print(f"{sys.argv[0]}: {fault}", file=sys.stderr)
        return 2
    return 0


if __name__ == "__main__":
    sys.exit(main())
