#!/usr/bin/env python3
"""Runs the program `arz_probe` with queries of JSONPath over documents of some MiB, and prints for each

- its time over that of Python's json module at reading the same document (`$` takes what reading
  takes on our side), and
- where the package jsonpath-ng is installed, the time of that package over the program's, for
  reading the document, selecting, and printing the places: whole, and without reading, which is
  what the query `$` takes on the same document,

each from medians of five runs in turn. What each side takes for a document of one integer, its start,
is taken off. Times are processor seconds. How many places are printed is compared with what this script
knows of the document. Where jq and `serde_json` in Rust are installed, their reading is set against too.
"""

import json
import pathlib
import subprocess
import sys
import tempfile

from measuring import medians, readers

TOP = pathlib.Path(__file__).resolve().parent.parent
CRATE = TOP / "crates" / "arz_probe"
PROGRAM = CRATE / "out" / "arz_probe"
RUNS = 5
SELECT = """
import json, sys
from jsonpath_ng.ext import parse
root = json.loads(open(sys.argv[1], 'rb').read())
print("\\n".join(str(found.full_path) for found in parse(sys.argv[2]).find(root)))
"""


def documents():
    """For each query its document, its text, and how many places it selects."""
    objects = [{"id": n, "tag": "odd" if n % 2 else "even", "size": n % 100} for n in range(100_000)]
    wide = [{"a": {"b": [n, n + 1, n + 2]}} for n in range(80_000)]
    yield "descendants", wide, "$..*", 80_000 * 6
    yield "filter over 100,000 objects", objects, "$[?@.size < 10]", 10_000
    yield "slice over 1,000,000 items", list(range(1_000_000)), "$[::-3]", 333_334


def has_rival():
    """Whether jsonpath-ng is installed."""
    probe = [sys.executable, "-c", "import jsonpath_ng.ext"]
    return subprocess.run(probe, stderr=subprocess.DEVNULL).returncode == 0


def commands_on(path, query, count, rival, yardsticks):
    """The commands over one document, by name, with a test of what each prints."""
    anything = lambda printed: True
    counted = lambda printed: printed.count(b"\n") == count
    commands = {
        "program": ([str(PROGRAM), "path", str(path), query], counted),
        "program, reading": ([str(PROGRAM), "path", str(path), "$"], anything),
    }
    for which, words in yardsticks.items():
        commands[which] = ([*words, str(path)], b"")
    if rival:
        commands["rival"] = ([sys.executable, "-c", SELECT, str(path), query], anything)
        commands["rival, reading"] = ([sys.executable, "-c", SELECT, str(path), "$"], anything)
    return commands


def compare(name, folder, query, count, rival, yardsticks):
    """Measures one query over the document in the folder, and prints its ratios."""
    path, start = folder / "document.json", folder / "start.json"
    cost = medians(commands_on(path, query, count, rival, yardsticks), RUNS)
    begun = medians(commands_on(start, "$", 1, rival, yardsticks), RUNS)
    time = {which: max(cost[which][0] - begun[which][0], 1e-6) for which in cost}
    print(f"{name}: {query} over {path.stat().st_size} bytes: {time['program']:.3f} s")
    for which in yardsticks:
        print(f"  time over {which} at reading: {time['program'] / time[which]:.2f}")
    if not rival:
        print("  jsonpath-ng isn't installed: skipped")
        return
    selecting = time["program"] - time["program, reading"]
    theirs = time["rival"] - time["rival, reading"]
    print(f"  jsonpath-ng over the program: {time['rival'] / time['program']:.1f}")
    print(f"  the same without reading: {theirs / selecting:.1f} (aim: at least 10)")


def main():
    # `rt run` proves and builds the program where that is due; with no words it prints `words`.
    build = subprocess.run(["rt", "run"], cwd=CRATE, stdout=subprocess.PIPE, stderr=subprocess.DEVNULL)
    if build.stdout != b"words\n":
        sys.exit(f"the program could not be built; `rt run` in {CRATE} tells why")
    rival, yardsticks = has_rival(), readers()
    with tempfile.TemporaryDirectory() as place:
        folder = pathlib.Path(place)
        (folder / "start.json").write_text("1")
        for name, document, query, count in documents():
            (folder / "document.json").write_text(json.dumps(document, separators=(",", ":")))
            compare(name, folder, query, count, rival, yardsticks)


main()
