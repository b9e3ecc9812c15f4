"""The fields of a saved state in words, part by part."""

import struct

import state_video
from state_words import joined, of_chip, onoff, yes

REGIONS = [("NTSC", 896_040, 53_693_175), ("PAL", 1_070_460, 53_203_424)]
LINE = 3_420
FLAGS_68000 = "T.S..210...XNZVC"
FLAGS_Z80 = "SZ.H.PNC"
STAGES_68000 = ["goes on", "waits for an access", "waits for a word of a transfer"]
STAGES_Z80 = ["goes on", "waits for an access", "hands its RAM over", "takes its RAM back"]
ENVELOPES = ["attack", "decay", "sustain", "release"]
BUTTONS = ["Up", "Down", "Left", "Right", "B", "C", "A", "Start", "Z", "Y", "X", "Mode"]
# Where the registers of operators 1 to 4 stand behind those of their channel.
OPERATORS = [0, 8, 4, 12]
# Fields that are told in decimal.
DECIMAL = {"cycle", "next event", "start", "halted since", "cause", "number of answers", "transfer words"}
DECIMAL |= {"transfer cost", "resets seen", "resets", "bytes left", "next byte", "line counter", "last fall"}
DECIMAL |= {"timer A overflows", "timer B overflows", "writes held", "next batch", "counter", "falls"}
DECIMAL |= {"Z80's interrupt from", "Z80's interrupt to", "envelopes' counter", "attenuation", "noise volume"}
DECIMAL |= {"period 1", "period 2", "period 3", "volume 1", "volume 2", "volume 3"}
# What the FM chip's registers of operators and channels are.
OF_OPERATORS = ["detune and multiple", "level", "scale and attack", "tremolo and decay", "sustain", "level and release"]
OF_OPERATORS += ["shape"]


def value(name, width, number):
    """A number of a field of this name: in decimal, or in hexadecimal with the digits of its bytes."""
    decimal = any(name == known or name.endswith(f" {known}") for known in DECIMAL)
    return str(number) if decimal else f"{number:0{2 * max(width, 1)}x}"


def place(name, at):
    """A place in a list or a memory of this name, and what stands there where it has a name of its own."""
    if name == "register":
        return f"{name} {at:02x} {state_video.VDP_NAMES[at]}".rstrip()
    if name.startswith("part"):
        return f"{name} {at:02x} {fm_name(int(name[5]) - 1, at)}".rstrip()
    if name == "VSRAM":
        return f"{name} {at} plane {'AB'[at % 2]}"
    return f"{name} {at}"


def fm_name(part, register):
    """What a register of the FM chip is: channel, operator and field."""
    channel = f"channel {register % 4 + 1 + 3 * part}"
    if register % 4 == 3 or register >= 0xB8 or register < 0x30:
        return "keys" if (part, register) == (0, 0x28) else ""
    if register < 0xA0:
        number = OPERATORS.index(register & 12) + 1
        return f"{channel} operator {number} {OF_OPERATORS[(register >> 4) - 3]}"
    if register < 0xB0:
        whose = "channel 3's own" if register & 8 else channel
        return f"{whose} frequency {'high' if register & 4 else 'low'}"
    return f"{channel} {'sides and depths' if register & 4 else 'algorithm and feedback'}"


def set_bits(number, letters):
    """The letters of the bits that are 1, the highest first."""
    return "".join(x if number >> (len(letters) - 1 - k) & 1 else "-" for k, x in enumerate(letters) if x != ".")


def told_file(version, fields):
    head = of_chip(fields, "file")
    name, frame, _ = REGIONS[head["region"]]
    into = head["cycle"] % frame
    yield f"{version.decode()}, {name}, cycle {head['cycle']}: frame {head['cycle'] // frame}, line {into // LINE}"
    yield f"cartridge {head['digest'].hex()}"


def told_68000(_, fields):
    chip = of_chip(fields, "68000")
    halted = yes(chip["halted"], f"halted since cycle {chip['halted since']}")
    stage = joined(STAGES_68000[chip["stage"]], yes(chip["stopped"], "stopped"), halted)
    yield f"68000: {stage}, next event at cycle {chip['next event']}"
    for letter in "DA":
        names = [f"{letter}{n}" for n in range(8 if letter == "D" else 7)]
        yield "  " + " ".join(f"{name} {chip[name]:08x}" for name in names)
    yield f"  PC {chip['PC']:08x} SR {chip['SR']:04x} {set_bits(chip['SR'], FLAGS_68000)} " + (
        f"USP {chip['USP']:08x} SSP {chip['SSP']:08x}"
    )


def told_z80(_, fields):
    chip = of_chip(fields, "Z80")
    stage = joined(STAGES_Z80[chip["stage"]], yes(chip["halted"], "halted"))
    owner = "the bus has its RAM" if chip["RAM is the bus's"] else "it has its RAM"
    yield f"Z80: {stage}, {owner}, bank {chip['bank'] << 15:06x}, next event at cycle {chip['next event']}"
    for names in (["AF", "BC", "DE", "HL"], ["AF'", "BC'", "DE'", "HL'"], ["IX", "IY", "SP", "PC"]):
        yield "  " + " ".join(f"{name} {chip[name]:04x}" for name in names)
    interrupts = joined(f"mode {chip['mode']}", yes(chip["IFF1"], "enabled", "disabled"))
    yield f"  I {chip['I']:02x} R {chip['R']:02x}, interrupts {interrupts}, {set_bits(chip['AF'] & 0xFF, FLAGS_Z80)}"


def dumped(data, first=0):
    """A dump of 16 bytes a row; `*` stands for rows that are the one before."""
    last, skipped = None, False
    for at in range(0, len(data), 16):
        row = data[at : at + 16]
        if row == last:
            if not skipped:
                yield "  *"
            skipped = True
            continue
        last, skipped = row, False
        yield f"  {first + at:04x} {row.hex(' ')}"


def told_fm(_, fields):
    port, chip = of_chip(fields, "FM port"), of_chip(fields, "FM")
    clock = REGIONS[fields["file", "region"]][2]
    registers = [chip["part 1 register"], chip["part 2 register"]]
    one = registers[0]
    yield f"FM: oscillator {onoff(one[0x22] & 8)} at rate {one[0x22] & 7}, converter {onoff(one[0x2B] & 128)} with {one[0x2A]:02x}, " + (
        f"channel 3 {'as four operators' if one[0x27] & 0xC0 else 'as the others'}"
    )
    timers = [f"timer {x} {onoff(port[f'timer {x} runs'])}, flag {port[f'flag {x}']}" for x in "AB"]
    latched = f"latched {port['part 1 latched']:02x} and {port['part 2 latched']:02x}"
    yield f"  {', '.join(timers)}; {latched}; {port['writes held']} writes held"
    for cycle, _, part, register, byte in held_writes(">QBBBB", port):
        what = "a reset" if part == 2 else f"part {part + 1} register {register:02x} {byte:02x}"
        yield f"  held for the next samples: at cycle {cycle} {what}"
    for channel in range(6):
        yield from told_channel(registers[channel // 3], chip, clock, channel)


def held_writes(form, port):
    """The writes that a sound chip's port holds."""
    size = struct.calcsize(form)
    return struct.iter_unpack(form, port["writes"][: size * min(port["writes held"], len(port["writes"]) // size)])


def told_channel(held, chip, clock, channel):
    """A channel and its four operators."""
    own = held[0xA0 : 0xB8], held[0x30:0xA0]
    n = channel % 3
    if not any(byte for part in own for byte in part[n::4]):
        yield f"  channel {channel + 1}: all registers are 0"
        return
    word = held[0xA4 + n] << 8 | held[0xA0 + n]
    rate = (word & 0x7FF) * 2 ** (word >> 11 & 7) / 2 * clock / 1008 / 2**20
    routes, sides = held[0xB0 + n], held[0xB4 + n]
    heard = " and ".join(text for bit, text in ((128, "left"), (64, "right")) if sides & bit) or "nowhere"
    yield f"  channel {channel + 1}: number {word & 0x7FF}, block {word >> 11 & 7}, {rate:.1f} Hz, heard {heard}, " + (
        f"algorithm {routes & 7}, feedback {routes >> 3 & 7}, tremolo {sides >> 4 & 3}, vibrato {sides & 7}"
    )
    for number in range(1, 5):
        at = n + OPERATORS[number - 1]
        yield f"    operator {number}: " + told_operator([held[row + at] for row in range(0x30, 0xA0, 0x10)])
        name = f"channel {channel + 1} operator {number}"
        key, state = onoff(chip[f"{name} key"]), ENVELOPES[chip[f"{name} state"] & 3]
        yield f"      key {key}, {state}, attenuation {chip[f'{name} attenuation']}, phase {chip[f'{name} phase']:05x}"


def told_operator(held):
    """The seven registers of an operator."""
    sound = f"detune {held[0] >> 4 & 7}, multiple {held[0] & 15}, level {held[1] & 127}, scale {held[2] >> 6}"
    rates = f"attack {held[2] & 31}, decay {held[3] & 31}, sustain {held[4] & 31}, release {held[5] & 15}"
    return f"{sound}, {rates}, sustain level {held[5] >> 4}{yes(held[3] & 128, ', tremolo')}"


def told_psg(_, fields):
    port, chip = of_chip(fields, "PSG port"), of_chip(fields, "PSG")
    clock = REGIONS[fields["file", "region"]][2]
    yield f"PSG: register {chip['latch']} selected, {port['writes held']} writes held"
    for cycle, _, byte in held_writes(">QBB", port):
        yield f"  held for the next samples: at cycle {cycle} {byte:02x}"
    for n in (1, 2, 3):
        period = chip[f"period {n}"]
        yield f"  tone {n}: period {period}, {clock / 480 / max(period, 1):.1f} Hz, {loudness(chip[f'volume {n}'])}"
    steps = ["512 clocks", "1,024 clocks", "2,048 clocks", "tone 3"][chip["noise"] & 3]
    yield f"  noise: {'white' if chip['noise'] & 4 else 'periodic'} by {steps}, {loudness(chip['noise volume'])}"


def loudness(attenuation):
    return "silent" if attenuation == 15 else f"{2 * attenuation} dB below full"


def told_board(_, fields):
    board = of_chip(fields, "board")
    bus = "requested" if board["bus requested"] else "not requested"
    yield f"board: Z80's bus {bus}, its reset {'held' if board['reset held'] else 'released'}, {board['resets']} resets"
    for n in (1, 2):
        pressed = " ".join(name for bit, name in enumerate(BUTTONS) if board[f"pad {n} word"] >> bit & 1)
        data, control = board[f"pad {n} value"], board[f"pad {n} control"]
        yield f"  pad {n}: {pressed or 'nothing'} pressed; data {data:02x}, control {control:02x}, {board[f'pad {n} falls']} falls"


def memory(title, field):
    """The dump of a memory as a part."""

    def told(_, fields):
        yield title
        yield from dumped(fields[field])

    return told


PARTS = {
    "file": told_file,
    "68000": told_68000,
    "z80": told_z80,
    "vdp": state_video.told_vdp,
    "colours": state_video.told_colours,
    "sprites": state_video.told_sprites,
    "fm": told_fm,
    "psg": told_psg,
    "board": told_board,
    "z80ram": memory("Z80's RAM", ("Z80", "RAM")),
    "ram": memory("work RAM, from FF0000", ("68000", "work RAM")),
    "vram": memory("VRAM", ("VDP", "VRAM")),
}
