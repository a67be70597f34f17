#!/usr/bin/env python3
"""Writes a folder of Prefetch files, so many, and a recording of the board they ran on.

    made.py FOLDER COUNT

The same bytes every time. Every seventh program has no reading, one has a name that a page must
not take for markup, and temperatures lie on both sides of zero.
"""
import pathlib
import random
import struct
import sys

WORDS = "CHAMBER PROBE LOGGER NOTEPAD SVCHOST EXPLORER CALIBRATE HEATER FRAMES UPDATE".split()
DAY = 864_000_000_000
FIRST = 0x01DB_3246_0000_0000
HOSTILE = '</script><b onload="x">&'


def prefetch(name, stored_hash, times, runs):
    """Version 26: a head, and all sections empty."""
    file = bytearray(212)
    struct.pack_into("<I4s", file, 0, 26, b"SCCA")
    struct.pack_into("<I", file, 12, len(file))
    text = name.encode("utf-16-le")
    file[16 : 16 + len(text)] = text
    struct.pack_into("<I", file, 76, stored_hash)
    struct.pack_into("<8Q", file, 128, *times)
    struct.pack_into("<I", file, 208, runs)
    return bytes(file)


def main(folder, count):
    folder = pathlib.Path(folder)
    (folder / "files").mkdir(parents=True)
    chance = random.Random(113)
    readings = []
    for k in range(count):
        name = HOSTILE if k == 3 else f"{WORDS[k % len(WORDS)]}{k // len(WORDS) or ''}.EXE"
        # The others start before all readings.
        is_read = k % 7 != 6
        middle = chance.randint(-300, 700)
        times = [FIRST + DAY * (365 - 40 * i) + k * 10_000_000 for i in range(8)]
        times = times if is_read else [FIRST + i for i in range(8)]
        for time in times if is_read else []:
            tenths = max(-400, min(1300, middle + chance.randint(-120, 120)))
            readings.append((time, tenths))
        file = prefetch(name, chance.getrandbits(32), times, chance.randint(1, 5_000))
        (folder / "files" / f"{k:04}.pf").write_bytes(file)
    readings.sort()
    lines = [f"{time:016X}03{tenths & 0xFFFF:04X}\n" for time, tenths in readings]
    (folder / "recording.txt").write_text("".join(lines))


if __name__ == "__main__":
    main(sys.argv[1], int(sys.argv[2]))
