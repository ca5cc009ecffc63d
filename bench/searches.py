#!/usr/bin/env python3
"""Runs the program `arz_probe` with a query whose filter searches 20,000 short texts for one pattern, and prints
its time over that of Python's re module on the same texts, from medians of five runs in turn. Both sides read the
same JSON file; what each takes for a file of one text, its start, is taken off. Times are processor seconds.
"""

import json
import pathlib
import subprocess
import sys
import tempfile

from measuring import medians

TOP = pathlib.Path(__file__).resolve().parent.parent
CRATE = TOP / "crates" / "arz_probe"
PROGRAM = CRATE / "out" / "arz_probe"
TEXTS, RUNS = 20_000, 5
PATTERN = "[a-c][a-c][a-c]"
SEARCHES = """
import json, re, sys
pattern = re.compile(sys.argv[2])
for at, text in enumerate(json.load(open(sys.argv[1], "rb"))):
    if pattern.search(text):
        print(f"$[{at}]")
"""


def text(number):
    """The text of this number."""
    letters = "abcdefghij"
    return "-".join(letters[number // 10**k % 10] * (1 + k % 3) for k in range(5))


def commands_for(name, texts, folder):
    """Writes the file of this name, and returns the commands over it with what each prints."""
    (folder / name).write_text(json.dumps(texts))
    words = [sys.executable, "-c", SEARCHES, name, PATTERN]
    found = subprocess.run(words, cwd=folder, capture_output=True, check=True).stdout
    return {
        ("search", name): ([str(PROGRAM), "path", name, f"$[?search(@, '{PATTERN}')]"], found),
        ("re", name): (words, found),
    }


def main():
    # `rt run` proves and builds the program where that is due; with no words it prints `words`.
    build = subprocess.run(["rt", "run"], cwd=CRATE, stdout=subprocess.PIPE, stderr=subprocess.DEVNULL)
    if build.stdout != b"words\n":
        sys.exit(f"the program could not be built; `rt run` in {CRATE} tells why")
    with tempfile.TemporaryDirectory() as place:
        folder = pathlib.Path(place)
        commands = commands_for("many.json", [text(number) for number in range(TEXTS)], folder)
        commands |= commands_for("one.json", [text(1)], folder)
        cost = medians(commands, RUNS, folder)
    time = {which: cost[which, "many.json"][0] - cost[which, "one.json"][0] for which, _ in commands}
    print(f"{TEXTS} searches: {time['search']:.3f} s; Python's re: {time['re']:.3f} s")
    print(f"searches over Python's re: {time['search'] / time['re']:.2f} (aim: at most 3)")


main()
