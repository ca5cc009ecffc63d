#!/usr/bin/env python3
"""Runs the program `arz_probe` on a JSON document of close to 4 MiB, of many small objects with texts
and integers, and prints

- the time of `wire`, from the document to its wire form, over that of Python's json module at
  reading the document and printing it again, and
- the time of `unwire`, from the wire form to the document, over that of Python's json module at
  reading the document,

each from medians of five runs in turn. What each side takes for a document of one integer, its start,
is taken off. Times are processor seconds. What the program prints is compared with the wire form that
this script spells itself. Where jq and `serde_json` in Rust are installed, `unwire` is set against their
reading too.
"""

import json
import pathlib
import subprocess
import sys
import tempfile

from measuring import medians, readers

TOP = pathlib.Path(__file__).resolve().parent.parent
CRATE = TOP / "crates" / "arz_probe"
PROGRAM = CRATE / "out" / "arz_probe"
LARGEST = 4 * 1024 * 1024
RUNS = 5
READ_AND_PRINT = "import json,sys; json.dumps(json.loads(open(sys.argv[1],'rb').read()))"


def document():
    """The items of the document, and its bytes. Names ascend, and no space stands between tokens."""
    items, texts, size = [], [], 2
    while True:
        n = len(items)
        item = {"id": n, "name": f"pet number {n}", "score": -37 * n, "tag": "små"}
        text = json.dumps(item, separators=(",", ":"), ensure_ascii=False).encode()
        size += len(text) + 1
        if size > LARGEST:
            return items, b"[" + b",".join(texts) + b"]"
        items.append(item)
        texts.append(text)


def number(n):
    """The shortest unsigned LEB128 of a number."""
    spelled = bytearray()
    while n >= 128:
        spelled.append(n % 128 + 128)
        n //= 128
    spelled.append(n)
    return bytes(spelled)


def counted(text):
    """A text's number of bytes, and its bytes."""
    return number(len(text.encode())) + text.encode()


def spelling(value):
    """The wire form of an integer, a text, a list or an object whose names ascend."""
    if isinstance(value, int):
        return b"\x03" + number(value) if value >= 0 else b"\x04" + number(-1 - value)
    if isinstance(value, str):
        return b"\x05" + counted(value)
    if isinstance(value, list):
        return b"\x06" + number(len(value)) + b"".join(map(spelling, value))
    members = (counted(name) + spelling(inner) for name, inner in value.items())
    return b"\x07" + number(len(value)) + b"".join(members)


def commands_for(name, text, form, folder, yardsticks):
    """Writes a document and its wire form, and returns the commands over them with what each prints."""
    (folder / f"{name}.json").write_bytes(text)
    (folder / f"{name}.wire").write_bytes(form)
    digits = form.hex().encode() + b"\n"
    line = text + b" " + str(len(form)).encode() + b"\n"
    commands = {
        "wire": ([str(PROGRAM), "wire", f"{name}.json"], digits),
        "unwire": ([str(PROGRAM), "unwire", f"{name}.wire"], line),
        "json reads and prints": ([sys.executable, "-c", READ_AND_PRINT, f"{name}.json"], b""),
    }
    for which, words in yardsticks.items():
        commands[which] = ([*words, f"{name}.json"], b"")
    return {(which, name): command for which, command in commands.items()}


def main():
    # `rt run` proves and builds the program where that is due; with no words it prints `words`.
    build = subprocess.run(["rt", "run"], cwd=CRATE, stdout=subprocess.PIPE, stderr=subprocess.DEVNULL)
    if build.stdout != b"words\n":
        sys.exit(f"the program could not be built; `rt run` in {CRATE} tells why")
    items, text = document()
    form = spelling(items)
    yardsticks = readers()
    with tempfile.TemporaryDirectory() as place:
        folder = pathlib.Path(place)
        commands = commands_for("document", text, form, folder, yardsticks)
        commands |= commands_for("start", b"1", spelling(1), folder, yardsticks)
        cost = medians(commands, RUNS, folder)
    names = {which for which, name in commands}
    time = {which: cost[which, "document"][0] - cost[which, "start"][0] for which in names}
    print(f"document: {len(text)} bytes; wire form: {len(form)} bytes")
    print("; ".join(f"{which}: {taken:.3f} s" for which, taken in sorted(time.items())))
    print(f"wire over Python's json: {time['wire'] / time['json reads and prints']:.2f} (aim: at most 1)")
    for which in yardsticks:
        aim = " (aim: at most 1)" if which == "Python's json" else ""
        print(f"unwire over {which}: {time['unwire'] / time[which]:.2f}{aim}")


main()
