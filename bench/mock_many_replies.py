#!/usr/bin/env python3
"""Runs the pets example with replies files of close to 4 MiB, the largest that are taken: of many small
replies, of replies with bodies, and of one reply whose body is a list of integers or of texts. Prints
for each

- the program's time over that of Python's json module at reading the same file, and over that of jq
  and of `serde_json` in Rust where these are installed, and
- the program's peak memory over the size of the file,

each from medians of five runs in turn. What each side takes for a file of one small reply, its start,
is taken off. Times are processor seconds, and memory is the largest resident set.
"""

import json
import pathlib
import shutil
import subprocess
import sys
import tempfile

from measuring import medians, readers

TOP = pathlib.Path(__file__).resolve().parent.parent
PROGRAM = TOP / "crates" / "arz_program" / "out" / "arz_program"
LARGEST = 4 * 1024 * 1024
RUNS = 5
REPORT = b"1 GET http://localhost:8080/pets/7 200 mock\ncompleted\n{}\n"
SMALL = b'{"status":200}'


def filled(front, item, back):
    """A text with as many of the items as fit, one for each number from 0."""
    items, size, number = [], len(front) + len(back), 0
    while size + len(item(number)) + 1 <= LARGEST:
        items.append(item(number))
        size += len(items[-1]) + 1
        number += 1
    return front + b",".join(items) + back


def files():
    """The replies files by name."""
    body = {"id": 7, "kind": "gold", "tags": ["a", "b"], "ready": True, "next": None}
    reply = json.dumps({"status": 200, "body": body}, separators=(",", ":")).encode()
    yield "small replies", filled(b"[", lambda number: SMALL, b"]")
    yield "bodies", filled(b"[", lambda number: reply, b"]")
    front, back = b'[{"status":200,"body":[', b"]}]"
    yield "integers", filled(front, lambda number: b"%d" % (number * 7919 % 1_000_003), back)
    yield "texts", filled(front, lambda number: b'"a text of an item, number %d"' % number, back)


def compare(name, content, folder, yardsticks):
    """Measures one file, and prints its ratios."""
    (folder / "many.json").write_bytes(content)
    commands = {
        ("program", file): ([str(PROGRAM), "mock", "s.json", file], REPORT) for file in ("many.json", "one.json")
    }
    for which, words in yardsticks.items():
        commands |= {(which, file): ([*words, file], b"") for file in ("many.json", "one.json")}
    cost = medians(commands, RUNS, folder)
    ours = cost["program", "many.json"][0] - cost["program", "one.json"][0]
    memory = cost["program", "many.json"][1] - cost["program", "one.json"][1]
    print(f"{name}: {len(content)} bytes: {ours:.3f} s, {memory / 2**20:.1f} MiB")
    for which in yardsticks:
        theirs = max(cost[which, "many.json"][0] - cost[which, "one.json"][0], 1e-6)
        aim = " (aim: at most 1)" if which == "Python's json" else ""
        print(f"  time over {which}: {ours / theirs:.2f}{aim}")
    print(f"  peak memory over the file's size: {memory / len(content):.1f} (aim: at most 24)")


def main():
    # `arz` proves and builds the program where that is due; with no words it ends with status 2.
    if subprocess.run([TOP / "arz"], stdout=subprocess.DEVNULL).returncode != 2:
        sys.exit("the program could not be built")
    yardsticks = readers()
    with tempfile.TemporaryDirectory() as name:
        folder = pathlib.Path(name)
        for file in ("s.json", "a.json", "pets.json"):
            shutil.copy(TOP / "examples" / "pets" / file, folder)
        (folder / "one.json").write_bytes(b"[" + SMALL + b"]")
        for name, content in files():
            compare(name, content, folder, yardsticks)


main()
