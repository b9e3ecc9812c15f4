"""What the program has to answer, told from the manual alone: the status, the lines and the sizes of the
files, for any words and any files. Of a saved state with a changed byte the manual does not tell whether a
field breaks its rule, so that either a refusal at a place or a run is right there.
"""
import dataclasses
import hashlib
import re

FRAME, LINE_224, BATCH = 896_040, 766_080, 16_128
LATEST = 549_755_813_888
PICTURE = b"P6\n320 224\n255\n"
PICTURE_SIZE = len(PICTURE) + 3 * 320 * 224
STATE_SIZE = 393_620
STATE_SIZES = {b"MDSTATE1": 378_240, b"MDSTATE2": 393_602, b"MDSTATE3": STATE_SIZE}
LIMITS = {"rom": 4_194_304, "in": 4_194_318, "load": 2_097_152}
OUTPUTS = ("frames", "sound", "journal", "save")
OPTIONS = ("cycles", "in", "load", *OUTPUTS[3:], *OUTPUTS[:3], "workers")
HALTED = re.compile(rb"halted at \d+\n")
FIELD = re.compile(rb"refused: state at (\d+)\n")


@dataclasses.dataclass
class Answer:
    """A status and the text that comes with it. `run` has the words of a run that ends well, where that is
    right, and `fields` says that a refusal at a place of the state's fields is right too."""

    status: int
    text: bytes
    run: dict | None = None
    start: int = 0
    fields: bool = False


def number_of(word):
    """A number of 1 to 20 digits below 2^64, or None."""
    if not re.fullmatch(rb"[0-9]{1,20}", word):
        return None
    return int(word) if int(word) < 1 << 64 else None


def split_words(words):
    """The options and the names that stand among words, or None where they are refused."""
    found, names, ended, at = {}, [], False, 0
    while at < len(words):
        word = words[at]
        at += 1
        if ended or not word.startswith(b"-") or word == b"-":
            names.append(word)
        elif word == b"--":
            ended = True
        else:
            option, equals, value = word[2:].partition(b"=")
            if not equals:
                value = words[at] if at < len(words) else b"-?"
                at += 1
                if value.startswith(b"-") and value != b"-":
                    return None
            if not word.startswith(b"--") or option in found or option.decode("latin-1") not in OPTIONS:
                return None
            found[option] = value
    return {option.decode(): value for option, value in found.items()}, names


def is_text(word):
    """Whether a word is text in UTF-8."""
    try:
        word.decode()
    except UnicodeDecodeError:
        return False
    return True


def read_words(words):
    """The command that words ask for, as a table of its values, or None where they are refused."""
    if not all(is_text(word) for word in words) or words[:1] not in ([b"info"], [b"run"]):
        return None
    split = split_words(words[1:])
    if split is None or len(split[1]) != 1:
        return None
    found = {"command": words[0].decode(), "rom": split[1][0], **split[0]}
    if found["command"] == "info":
        return found if len(found) == 2 and not found["rom"].startswith(b"-") and found["rom"] else None
    names = [found[key] for key in ("rom", "in", "load", *OUTPUTS) if key in found]
    if any(not name or name.startswith(b"-") for name in names) or len(set(names)) < len(names):
        return None
    found["cycles"] = number_of(found.get("cycles", b""))
    found["workers"] = number_of(found.get("workers", b"1"))
    return None if found["cycles"] is None or found["workers"] not in range(1, 6) else found


def recording_place(data):
    """The first byte at which bytes are no recording, or None where they are one."""
    leads = [b"MDREC001", *(b"MDREC002\0" + bytes((flags,)) for flags in range(4))]
    places = [version_place(data, lead) for lead in leads]
    return None if None in places else max(places)


def version_place(data, lead):
    """The first byte at which bytes are no recording with this lead, or None where they are one."""
    start = len(lead)
    for place, byte in enumerate(data[:start]):
        if byte != lead[place]:
            return place
    six = [start == 10 and lead[9] >> pad & 1 for pad in (0, 1)]
    for place, byte in enumerate(data[start : start + 4], start):
        before = data[start:place]
        most = (0x00, 0x10, 0x00, 0x00)[place - start] if before in (b"", b"\0", b"\0\x10", b"\0\x10\0") else 255
        if byte > most:
            return place
    if len(data) < start + 4:
        return len(data)
    first = start + 4
    end = first + 4 * int.from_bytes(data[start:first], "big")
    for place in range(first, min(end, len(data)), 2):
        if data[place] > (15 if six[(place - first) // 2 % 2] else 0):
            return place
    return None if len(data) == end else min(len(data), end)


def padded(image):
    return image + b"\0" * (len(image) % 2)


def header_lines(image):
    """What `info` tells of a cartridge."""

    def shown(first, length):
        field = image[first : first + length].rstrip(b"\0 ")
        return bytes(byte if 0x20 <= byte <= 0x7E else 0x2E for byte in field)

    image = padded(image)
    words = [int.from_bytes(image[at : at + 2], "big") for at in range(0x200, len(image), 2)]
    kept, computed = int.from_bytes(image[0x18E:0x190], "big"), sum(words) % 65_536
    told = b"ok" if kept == computed else b"differs"
    return (
        b"domestic: %s\noverseas: %s\nserial: %s\nregion: %s\nsize: %d\nchecksum: %04x computed %04x %s\n"
        % (shown(0x120, 48), shown(0x150, 48), shown(0x180, 14), shown(0x1F0, 3), len(image), kept, computed, told)
    )


def refused(status, text):
    return Answer(status, text + b"\n")


def file_refused(command, key, files):
    """The refusal of an input that is missing or too long, or None."""
    name = command[key]
    if files.get(name) is None:
        return refused(3, b"fault: reading " + name)
    if len(files[name]) > LIMITS[key]:
        return refused(14, b"refused: " + name + b" is too long")
    return None


def state_refused(state, image):
    """The refusal of a state for its length, its mark or its cartridge, or None."""
    size = STATE_SIZES.get(bytes(state[:8]))
    if len(state) < 8 or size is None:
        return refused(7, b"refused: state at %d" % (len(state) if len(state) < 8 else 0))
    if len(state) != size:
        return refused(7, b"refused: state at %d" % min(len(state), size))
    given = hashlib.sha256(padded(image)).digest()
    if state[8:40] != given:
        digests = b"%s %s" % (state[8:40].hex().encode(), given.hex().encode())
        return refused(8, b"refused: state of another cartridge " + digests)
    return None


def cartridge_refused(image):
    """The refusal of a cartridge, or None."""
    if len(image) < 512:
        return refused(5, b"refused: cartridge: short")
    if b"SEGA" not in (image[0x100:0x104], image[0x101:0x105]):
        return refused(5, b"refused: cartridge: no mark")
    return None


def inputs_refused(command, files):
    """The first refusal of the inputs, or None."""
    fault = file_refused(command, "rom", files) or cartridge_refused(files[command["rom"]])
    if fault is None and "in" in command:
        fault = file_refused(command, "in", files)
        place = None if fault else recording_place(files[command["in"]])
        if place is not None:
            fault = refused(6, b"refused: recording at %d" % place)
    if fault is None and "load" in command:
        fault = file_refused(command, "load", files)
        fault = fault or state_refused(files[command["load"]], files[command["rom"]])
    return fault


def answer_of(words, files, kept=()):
    """The answer to words, where the files are these; the states in `kept` are known to keep their rules."""
    command = read_words(words)
    if command is None:
        return refused(2, b"refused: usage")
    end = command.get("cycles", 0)
    if end > LATEST:
        return refused(11, b"refused: cycle %d is too far" % end)
    fault = inputs_refused(command, files)
    if fault is not None:
        return fault
    if command["command"] == "info":
        return Answer(0, header_lines(files[command["rom"]]))
    state = files[command["load"]] if "load" in command else None
    start = int.from_bytes(state[40:48], "big") if state else 0
    fields = state is not None and state not in kept
    if end <= start:
        return Answer(9, b"refused: cycle %d is not above %d\n" % (end, start), fields=fields)
    return Answer(0, b"", command, start, fields)


def count(first, step, start, end):
    """How many of first, first + step and so on are not below the start and below the end."""

    def below(cycle):
        return max(0, -(-(cycle - first) // step))

    return below(end) - below(start)


def run_lines(answer, records):
    """The lines of a run with so many records."""
    end = answer.run["cycles"]
    frames = count(LINE_224, FRAME, answer.start, end)
    pairs = 16 * count(BATCH, BATCH, answer.start, end)
    lines = b"cycles %d to %d\nframes %d\nsamples %d\naccesses %d\n"
    return frames, pairs, lines % (answer.start, end, frames, pairs, records)


def records_wrong(journal, start, end):
    """What is wrong with a journal's order, or nothing."""
    last = (start, -1)
    for at in range(0, len(journal), 16):
        key = (int.from_bytes(journal[at : at + 8], "big"), journal[at + 8])
        if key <= last or key[0] >= end or key[1] > 4 or journal[at + 9] > 12:
            return f"record {at // 16} of the journal"
        last = key
    return ""


def sizes_wrong(answer, outputs, records, frames, pairs):
    """What is wrong with the outputs' sizes and heads, or nothing."""
    for key, data in outputs.items():
        wanted = {"frames": PICTURE_SIZE * frames, "sound": 44 + 4 * pairs, "journal": 16 * records, "save": STATE_SIZE}
        if len(data) != wanted[key]:
            return f"{key} has {len(data)} bytes in place of {wanted[key]}"
    pictures = outputs.get("frames", b"")
    if any(not pictures.startswith(PICTURE, at) for at in range(0, len(pictures), PICTURE_SIZE)):
        return "a picture has another head"
    sound = outputs.get("sound", b"")
    if sound and (int.from_bytes(sound[40:44], "little") != 4 * pairs or sound[:4] + sound[8:12] != b"RIFFWAVE"):
        return "the sound has another head"
    state = outputs.get("save", b"")
    if state and int.from_bytes(state[40:48], "big") != answer.run["cycles"]:
        return "the state has another cycle"
    return records_wrong(outputs.get("journal", b""), answer.start, answer.run["cycles"])


def run_wrong(answer, text, outputs):
    """What is wrong with the lines and the outputs of a run that ended well, or nothing."""
    told = re.search(rb"accesses (\d+)\n", text)
    records = int(told.group(1)) if told else -1
    frames, pairs, lines = run_lines(answer, records)
    rest = text[len(lines) :]
    if not text.startswith(lines) or rest and not HALTED.fullmatch(rest):
        return f"the lines {text!r} in place of {lines!r}"
    missing = [key for key in OUTPUTS if key in answer.run and key not in outputs]
    return f"no {missing[0]}" if missing else sizes_wrong(answer, outputs, records, frames, pairs)


def wrong(answer, status, text, outputs):
    """What is wrong with a status, a text and the outputs that are there, or nothing."""
    place = FIELD.fullmatch(text)
    if answer.fields and status == 7 and place and 40 <= int(place.group(1)) < STATE_SIZE:
        return "outputs of a refused state" if outputs else ""
    if status != answer.status:
        return f"status {status} with {text!r} in place of {answer.status} with {answer.text!r}"
    if answer.run is not None:
        return run_wrong(answer, text, outputs)
    if text != answer.text:
        return f"{text!r} in place of {answer.text!r}"
    return "outputs of a refused run" if outputs else ""
