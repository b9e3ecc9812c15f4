"""The VDP of a saved state in words: its registers, colours and sprites."""

from state_words import joined, of_chip, onoff, yes

# The names of the VDP's registers; source: Genesis Software Manual, VDP registers.
VDP_NAMES = ["mode 1", "mode 2", "plane A", "window", "plane B", "sprites", "", "backdrop", "", ""]
VDP_NAMES += ["line interval", "mode 3", "mode 4", "horizontal scroll", "", "increment", "plane size", "window across"]
VDP_NAMES += ["window down", "length low", "length high", "source low", "source middle", "source high"]
CODES = {0: "read VRAM", 1: "write VRAM", 3: "write CRAM", 4: "read VSRAM", 5: "write VSRAM", 8: "read CRAM"}
CELLS = [32, 64, 32, 128]


def is_wide(vdp):
    return vdp["register"][12] & 1


def plane(vdp, which):
    """Where the names of a plane stand, and how many cells it is wide and high."""
    registers = vdp["register"]
    sizes = CELLS[registers[16] & 3], CELLS[registers[16] >> 4 & 3]
    if which == "a":
        return (registers[2] & 0x38) << 10, *sizes
    if which == "b":
        return (registers[4] & 7) << 13, *sizes
    return ((registers[3] & 0x3C) << 10, 64, 32) if is_wide(vdp) else ((registers[3] & 0x3E) << 10, 32, 32)


def sprite_table(vdp):
    base = vdp["register"][5]
    return (base & 0x7E) << 9 if is_wide(vdp) else (base & 0x7F) << 9


def modes(number, byte, vdp):
    """What a register of the VDP says."""
    if number == 0:
        return joined(f"horizontal interrupt {onoff(byte & 16)}")
    if number == 1:
        texts = [(64, "display"), (32, "vertical interrupt"), (16, "DMA")]
        lines = f"{30 if byte & 8 else 28} rows of cells"
        return joined(*(f"{text} {onoff(byte & bit)}" for bit, text in texts), lines)
    if number in (2, 3, 4):
        base, across, down = plane(vdp, {2: "a", 3: "window", 4: "b"}[number])
        return f"names at {base:04x}, {across} by {down} cells"
    if number == 5:
        return f"table at {sprite_table(vdp):04x}"
    if number == 7:
        return f"palette {byte >> 4 & 3}, colour {byte & 15}"
    if number == 10:
        return f"an interrupt each {byte + 1} lines" if byte else "an interrupt each line"
    if number == 11:
        across = ["whole plane", "whole plane", "each 8 lines", "each line"][byte & 3]
        return f"across {across}, down {'each 16 dots' if byte & 4 else 'whole plane'}"
    if number == 12:
        return joined(f"{320 if byte & 1 else 256} dots", f"shadow and highlight {onoff(byte & 8)}")
    if number == 13:
        return f"table at {(byte & 0x3F) << 10:04x}"
    if number == 15:
        return f"{byte} byte" + yes(byte != 1, "s")
    if number == 17:
        return f"{'from' if byte & 128 else 'up to'} dot {16 * (byte & 31)}"
    if number == 18:
        return f"{'from' if byte & 128 else 'up to'} line {8 * (byte & 31)}"
    return ""


def source(registers):
    """What a second control word with bit 7 would start."""
    length = registers[19] | registers[20] << 8 or 0x1_0000
    place = registers[21] | registers[22] << 8
    kind = registers[23] >> 6
    if kind == 2:
        return f"fill of {length} bytes"
    if kind == 3:
        return f"copy of {length} bytes from {place:04x}"
    return f"transfer of {length} words from {2 * (place | (registers[23] & 0x7F) << 16):06x}"


def told_vdp(_, fields):
    vdp = of_chip(fields, "VDP")
    registers = vdp["register"]
    code = CODES.get(vdp["code"] & 15, "nothing") + yes(vdp["code"] & 32, ", with DMA")
    waits = yes(vdp["control word waits"], ", a first control word waits for its second")
    yield f"VDP: address {vdp['address']:04x}, code {vdp['code']:02x} {code}{waits}"
    going = [yes(vdp["fill armed"], "a fill waits for its word", "nothing goes on")]
    going += ["a fill goes on", "a copy goes on"]
    left = yes(vdp["going on"], f", {vdp['bytes left']} bytes left, the next at {vdp['target']:04x}")
    yield f"  {going[vdp['going on']]}{left}; registers ask for a {source(registers)}"
    interrupts = joined(yes(vdp["vertical waits"], "vertical"), yes(vdp["horizontal waits"], "horizontal"))
    yield f"  interrupts that wait: {interrupts or 'none'}; line counter {vdp['line counter']}" + (
        f"; overflow {vdp['overflow']}, collision {vdp['collision']}"
    )
    for number, (name, byte) in enumerate(zip(VDP_NAMES, registers)):
        if name or byte:
            yield f"  {number:02x} {name:<18} {byte:02x}  {modes(number, byte, vdp)}".rstrip()
    down = vdp["VSRAM"] if registers[11] & 4 else vdp["VSRAM"][:2]
    yield "  scrolls down, A and B: " + " ".join(f"{word:03x}" for word in down)
    at = (registers[13] & 0x3F) << 10
    words = [int.from_bytes(vdp["VRAM"][at + k : at + k + 2], "big") & 0x3FF for k in (0, 2)]
    yield "  scrolls across of line 0, A and B: " + " ".join(f"{word:03x}" for word in words)


def told_colours(_, fields):
    words = fields["VDP", "CRAM"]
    for palette in range(4):
        line = words[16 * palette : 16 * palette + 16]
        yield f"palette {palette}: " + " ".join(f"{word:03x}" for word in line)
        yield "  " + " ".join("#" + "".join(f"{36 * (word >> shift & 7):02x}" for shift in (1, 5, 9)) for word in line)


def told_sprites(_, fields):
    vdp = of_chip(fields, "VDP")
    base, most = sprite_table(vdp), 80 if is_wide(vdp) else 64
    number, lines = 0, []
    for _ in range(most):
        at = base + 8 * number
        top, size, name, left = (vdp["VRAM"][k % 65536] << 8 | vdp["VRAM"][(k + 1) % 65536] for k in range(at, at + 8, 2))
        flags = joined(yes(name & 0x8000, "priority"), yes(name & 0x800, "flipped across"), yes(name & 0x1000, "flipped down"))
        lines.append(
            f"  {number:>2}: x {left % 512 - 128:>4}, y {top % 512 - 128:>4}, "
            f"{(size >> 10 & 3) + 1} by {(size >> 8 & 3) + 1} cells, pattern {name & 0x7FF:03x}, "
            f"palette {name >> 13 & 3}{yes(flags, ', ' + flags)}"
        )
        number = size & 0x7F
        if number == 0 or number >= most:
            break
    yield f"sprites: {len(lines)} in the list, table at {base:04x}"
    yield from lines
