#!/usr/bin/env python3
"""Runs the program `arz_probe` on a journal of 256 MiB with 20,000 entries, half of them the beginnings
of asks and half their replies, and prints

- the time of `journal`, over that of `cat` at handing the file on, and over that of the same program at
  a journal of one entry and a closed gate, with the rest of the file behind it, which is never read: so
  what is left is the reading of the entries alone;
- the peak memory of both over the file's size. The program reads the file into memory first, and the
  world in memory keeps a second copy of it: only the difference of the two is that of the entries,
  of which there is one at a time,

from medians of five runs in turn. Times are processor seconds, those of the operating system too.
"""

import pathlib
import struct
import subprocess
import sys
import tempfile

from measuring import medians

TOP = pathlib.Path(__file__).resolve().parent.parent
CRATE = TOP / "crates" / "arz_probe"
PROGRAM = CRATE / "out" / "arz_probe"
SIZE = 256 * 1024 * 1024
ASKS = 10_000
RUNS = 5


def block(payload):
    """An open gate, how many bytes the payload has, and the payload."""
    return b"\x01" + struct.pack(">I", len(payload)) + payload


def entries():
    """The blocks of the journal and the lines that tell them. Each reply has as many bytes as makes the
    file as long as it is to be."""
    message = bytes(range(256)) * (SIZE // ASKS // 256 + 1)
    for number in range(1, ASKS + 1):
        yield block(b"\x02" + struct.pack(">I", number)), b"begun %d\n" % number
        yield block(b"\x03" + struct.pack(">I", number) + b"\x00" + message), b"held %d false %d\n" % (number, len(message))


def write_journals(folder):
    """Writes both journals, and returns what is printed of each, and how many bytes each has."""
    blocks, lines = zip(*entries())
    whole = b"ARZJRNL1" + b"".join(blocks) + b"\0"
    (folder / "whole").write_bytes(whole)
    place = 8 + len(blocks[0])
    (folder / "start").write_bytes(whole[:place] + b"\0" + whole[place + 1 :])
    printed = b"".join(lines) + b"closed gate %d\n" % (len(whole) - 1)
    return printed, lines[0] + b"closed gate %d\n" % place, len(whole)


def main():
    # `rt run` proves and builds the program where that is due; with no words it prints `words`.
    build = subprocess.run(["rt", "run"], cwd=CRATE, stdout=subprocess.PIPE, stderr=subprocess.DEVNULL)
    if build.stdout != b"words\n":
        sys.exit(f"the program could not be built; `rt run` in {CRATE} tells why")
    with tempfile.TemporaryDirectory() as place:
        folder = pathlib.Path(place)
        whole, start, size = write_journals(folder)
        commands = {
            "journal": ([str(PROGRAM), "journal", "whole"], whole),
            "one entry": ([str(PROGRAM), "journal", "start"], start),
            "cat": (["/bin/sh", "-c", "cat whole > /dev/null"], b""),
        }
        cost = medians(commands, RUNS, folder)
    print(f"journal: {size} bytes, {2 * ASKS} entries")
    print("; ".join(f"{name}: {taken:.3f} s, {peak / 2**20:.1f} MiB" for name, (taken, peak) in sorted(cost.items())))
    print(f"journal over cat: {cost['journal'][0] / cost['cat'][0]:.2f}")
    reading = cost["journal"][0] - cost["one entry"][0]
    print(f"reading the entries alone, over cat: {reading / cost['cat'][0]:.2f}")
    print(f"memory of the entries, over one of {SIZE // ASKS} bytes: {(cost['journal'][1] - cost['one entry'][1]) / (SIZE // ASKS):.2f}")


main()
