#!/usr/bin/env python3
"""Emulated frames a second, context switches and the peak of memory, of the program that `rt ci` has
built.

    bench/frames.py [FRAMES [IMAGE]]

It runs the cartridge IMAGE, or nine if none is named, for FRAMES frames of 896,040 cycles, 600 if not
given, with one worker and with sound and journal: `idle` is a branch to itself, `mix` a loop of thirteen
instructions that each frame has some 9,400 of, `scale`, `chord` and `show` are those of examples,
`transfer` moves 7,500 bytes into the VDP's memory in the vertical blanking of each frame, `data` writes a
word to the VDP's data port 5,818 times a frame, and in `busy` the Z80 writes the FM chip's converter 1,810
times a frame, while the 68000 sleeps and writes 275 words in each vertical interrupt. `game`, of game.asm,
has chords of the FM chip, a melody, two planes, 40 sprites and a transfer a frame, and writes to the VDP
in the vertical interrupt alone. Frames are drawn in each, and written in none. Then it runs `mix`,
`chord`, `show` and `game` with 2, 3 and 5 workers (workers.py compares several workers with one).
The times are those of the clock on the wall, the program's start and the writing of its files included;
the switches are those of all its threads, those that wait and those that are made to. Of `idle` and `mix`
the moves are known, and a second line has the nanoseconds of one: the 68000's, one an instruction, the
Z80's, which is held in its reset and looks at its pins each 45 cycles, so that it passes over many of them
at once, and those of lines and samples.
"""
import os
import pathlib
import subprocess
import sys
import tempfile
import time

TOP = pathlib.Path(__file__).resolve().parent.parent
PROGRAM = TOP / "crates" / "md_prog" / "out" / "md_prog"
FRAME = 896_040
IDLE = "dc.w $00ff,$f000,$0000,$01fc\norg $100\ndc.w $5345,$4741\norg $1fc\ndc.w $60fe,$0000\n"
MIX = """org $0
    dc.w $00ff,$f000,$0000,$0200
org $100
    dc.w $5345,$4741
org $200
    dc.w $41f9,$00ff,$0000              ; lea     $00ff0000.l,a0
; at 206
    dc.w $3010                          ; move.w  (a0),d0           8 clocks
    dc.w $d240                          ; add.w   d0,d1             4
    dc.w $b240                          ; cmp.w   d0,d1             4
    dc.w $6400,$0002                    ; bcc.w   *+4               10 or 12
    dc.w $3140,$0010                    ; move.w  d0,16(a0)         12
    dc.w $e548                          ; lsl.w   #2,d0             10
    dc.w $4841                          ; swap    d1                4
    dc.w $c0fc,$01ff                    ; mulu    #$1ff,d0          56
    dc.w $2f01                          ; move.l  d1,-(a7)          12
    dc.w $261f                          ; move.l  (a7)+,d3          12
    dc.w $6100,$0004                    ; bsr.w   *+6               18
    dc.w $60e0                          ; bra.b   $206              10
    dc.w $4e75                          ; rts                       16
"""
TRANSFER = """org $0
    dc.w $00ff,$f000,$0000,$0200
org $100
    dc.w $5345,$4741
org $200
    dc.w $41f9,$00c0,$0004              ; lea     $00c00004.l,a0    the VDP's control port
    dc.w $30bc,$8f02,$30bc,$8150        ; move.w  #,(a0)            increment 2; display and DMA on
; at 20e: wait for the vertical blanking
    dc.w $3010,$0800,$0003              ; move.w  (a0),d0; btst #3,d0
    dc.w $67f8                          ; beq.b   $20e
    dc.w $30bc,$93a6,$30bc,$940e        ; move.w  #,(a0)            3,750 words
    dc.w $30bc,$9500,$30bc,$9600        ; move.w  #,(a0)            from 0
    dc.w $30bc,$9700                    ; move.w  #,(a0)
    dc.w $30bc,$4000,$30bc,$0080        ; move.w  #,(a0)            to VRAM at 0
; at 232: wait for its end
    dc.w $3010,$0800,$0003              ; move.w  (a0),d0; btst #3,d0
    dc.w $66f8                          ; bne.b   $232
    dc.w $60d2                          ; bra.b   $20e
"""
DATA = """org $0
    dc.w $00ff,$f000,$0000,$0200
org $100
    dc.w $5345,$4741
org $200
    dc.w $43f9,$00c0,$0000              ; lea     $00c00000.l,a1    the VDP's data port
    dc.w $33fc,$8f02,$00c0,$0004        ; move.w  #,$00c00004.l     increment 2
    dc.w $33fc,$8144,$00c0,$0004        ; move.w  #,$00c00004.l     display on
    dc.w $23fc,$4000,$0000,$00c0,$0004  ; move.l #,$00c00004.l to VRAM at 0
; at 220
    dc.w $3280                          ; move.w  d0,(a1)           8 clocks
    dc.w $5240                          ; addq.w  #1,d0             4
    dc.w $60fa                          ; bra.b   $220              10
"""
BUSY = """org $0
    dc.w $00ff,$f000,$0000,$0200
org $78
    dc.w $0000,$0270                    ; the vertical interrupt
org $100
    dc.w $5345,$4741
org $200
    dc.w $43f9,$00a1,$1100              ; lea     $00a11100.l,a1    the request for the Z80's bus
    dc.w $33fc,$0100,$00a1,$1200        ; move.w  #,$00a11200.l     release the Z80's reset
    dc.w $32bc,$0100                    ; move.w  #$0100,(a1)       request its bus
; at 212: wait for the grant
    dc.w $0811,$0000,$66fa              ; btst #0,(a1); bne.b $212
    dc.w $41f9,$00a0,$0000              ; lea     $00a00000.l,a0    the Z80's RAM
    dc.w $45f9,$0000,$02c0              ; lea     $000002c0.l,a2    its program
    dc.w $700f                          ; moveq   #15,d0
; at 226
    dc.w $10da,$51c8,$fffc              ; move.b  (a2)+,(a0)+; dbf d0,$226
    dc.w $33fc,$0000,$00a1,$1200        ; move.w  #,$00a11200.l     reset it
    dc.w $33fc,$0100,$00a1,$1200        ; move.w  #,$00a11200.l
    dc.w $32bc,$0000                    ; move.w  #$0000,(a1)       and let it go
    dc.w $43f9,$00c0,$0000              ; lea     $00c00000.l,a1    the VDP's data port
    dc.w $33fc,$8f02,$00c0,$0004        ; move.w  #,$00c00004.l     increment 2
    dc.w $33fc,$8164,$00c0,$0004        ; move.w  #,$00c00004.l     display and vertical interrupt on
    dc.w $33fc,$8c81,$00c0,$0004        ; move.w  #,$00c00004.l     320 dots
; at 25e
    dc.w $4e72,$2000,$60fa              ; stop    #$2000; bra.b $25e
org $270
    dc.w $23fc,$4000,$0000,$00c0,$0004  ; move.l #,$00c00004.l to VRAM at 0
    dc.w $323c,$0112                    ; move.w  #274,d1
; at 27e
    dc.w $3280,$5240,$51c9,$fffa        ; move.w  d0,(a1); addq.w #1,d0; dbf d1,$27e
    dc.w $4e73                          ; rte
; the program of the Z80
org $2c0
    dc.w $2100,$4036,$2a23              ; ld hl,$4000; ld (hl),$2a; inc hl     the converter's register
    dc.w $7781,$0300,$18fa              ; ld (hl),a; add a,c; inc bc; nop; jr *-4   33 clocks
    dc.w $0000,$0000
"""
# how many moves a frame has: the 68000's, 19,912 of the Z80, 262 lines and twice 55.6 batches
MOVES = {"idle": 12_801 + 20_285, "mix": 9_401 + 20_285}


def build(source, image):
    subprocess.run([PROGRAM, "asm", source, image], check=True, stdout=subprocess.DEVNULL)


def memory(run):
    """The peak of a process so far, in KiB; 0 once it has ended."""
    try:
        lines = pathlib.Path(f"/proc/{run.pid}/status").read_text().splitlines()
    except OSError:
        return 0
    return max((int(line.split()[1]) for line in lines if line.startswith("VmHWM:")), default=0)


def run(image, frames, folder, workers=1):
    """The seconds of a run, its context switches, and the peak of its memory in KiB."""
    words = [PROGRAM, "run", image, "--cycles", str(frames * FRAME), "--workers", str(workers)]
    words += ["--sound", folder / "sound.wav", "--journal", folder / "journal"]
    start = time.perf_counter()
    job = subprocess.Popen(words, stdout=subprocess.DEVNULL)
    peak = 0
    while True:
        ended, status, used = os.wait4(job.pid, os.WNOHANG)
        if ended:
            break
        peak = max(peak, memory(job))
        time.sleep(0.005)
    seconds = time.perf_counter() - start
    job.returncode = os.waitstatus_to_exitcode(status)
    if job.returncode != 0:
        sys.exit(f"{image}: status {job.returncode}")
    return seconds, used.ru_nvcsw + used.ru_nivcsw, peak


def measure(name, image, frames, folder, workers=1):
    seconds, switches, peak = run(image, frames, folder, workers)
    print(
        f"{name}, workers {workers}: {frames / seconds:.0f} frames a second, "
        f"{switches} context switches, {peak / 1024:.1f} MiB at most",
        flush=True,
    )
    if name in MOVES and workers == 1:
        print(f"{name}: {seconds / frames / MOVES[name] * 1e9:.1f} nanoseconds a move")


def images(folder):
    """The nine cartridges, made in a folder, by their names."""
    texts = {"idle": IDLE, "mix": MIX, "transfer": TRANSFER, "data": DATA, "busy": BUSY}
    made = {}
    for name in ("idle", "mix", "scale", "chord", "transfer", "data", "busy", "show"):
        source, made[name] = TOP / "examples" / name / f"{name}.asm", folder / f"{name}.bin"
        if name in texts:
            source = folder / f"{name}.asm"
            source.write_text(texts[name])
        build(source, made[name])
    made["game"] = folder / "game.bin"
    build(TOP / "bench" / "game.asm", made["game"])
    return made


def main():
    frames = int(sys.argv[1]) if len(sys.argv) > 1 else 600
    if not PROGRAM.exists():
        sys.exit(f"{PROGRAM} is missing: run `rt ci` first")
    with tempfile.TemporaryDirectory() as name:
        folder = pathlib.Path(name)
        if len(sys.argv) > 2:
            image = pathlib.Path(sys.argv[2])
            measure(image.name, image, frames, folder)
            return
        made = images(folder)
        for cartridge, image in made.items():
            measure(cartridge, image, frames, folder)
        for cartridge in ("mix", "chord", "show", "game"):
            for workers in (2, 3, 5):
                measure(cartridge, made[cartridge], frames, folder, workers)


if __name__ == "__main__":
    main()
