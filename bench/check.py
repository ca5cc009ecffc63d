#!/usr/bin/env python3
"""Runs `check` on a setup whose description and four sources have close to 4 MiB each, and prints its time over
that of Python's json module at reading all of these files, and its peak memory over their size, from medians of
five runs in turn.

The description has one workflow of 256 steps with large values, which call operations of all sources in turn; each
source has 5,000 operations. Then the same with a step for each of these 20,000 operations, in 79 workflows: such a
description is judged by its own rules today and then refused for its second workflow, so the sources aren't read, and
the time is that of Python at the description alone. What each side takes for files of one step and one operation, its
start, is taken off. Times are processor seconds, and memory is the largest resident set.
"""

import json
import pathlib
import subprocess
import sys
import tempfile

from measuring import medians

TOP = pathlib.Path(__file__).resolve().parent.parent
CRATE = TOP / "crates" / "arz_program"
PROGRAM = CRATE / "out" / "arz_program"
LARGEST = 4 * 1024 * 1024
STEPS, OPERATIONS, SOURCES, RUNS = 256, 5_000, 4, 5
INFO = {"title": "t", "version": "1"}
READ_ALL = "import json,sys; [json.load(open(path,'rb')) for path in sys.argv[1:]]"


def compact(value):
    """The compact text of a value."""
    return json.dumps(value, separators=(",", ":"))


def notes(items):
    """A value of so many items."""
    return [{"key": f"key {k}", "on": True, "n": k, "none": None} for k in range(items)]


def step(number, items):
    """The step of this number, which calls an operation of one source, with a value of so many items."""
    return {
        "stepId": f"step{number}",
        "operationId": f"shop{number % SOURCES}operation{number // SOURCES}",
        "parameters": [{"name": "id", "in": "path", "value": "7"}],
        "x-notes": notes(items),
    }


def description(steps, items):
    """The description of so many steps, in workflows of at most 256."""
    workflows = []
    for begin in range(0, steps, STEPS):
        numbers = range(begin, min(begin + STEPS, steps))
        workflows.append({"workflowId": f"main{begin}", "steps": [step(number, items) for number in numbers]})
    sources = [{"name": f"shop{k}", "url": f"source{k}.json"} for k in range(SOURCES)]
    return {"arazzo": "1.0.1", "info": INFO, "sourceDescriptions": sources, "workflows": workflows}


def source(name, operations, items):
    """The source of this name with so many operations, each with a value of so many items."""
    paths = {}
    for number in range(operations):
        operation = {"operationId": f"{name}operation{number}", "x-notes": notes(items)}
        paths[f"/group{number % 50}/{number}/{{id}}"] = {"get": operation}
    return {"openapi": "3.1.0", "info": INFO, "servers": [{"url": "http://localhost:8080"}], "paths": paths}


def largest(make, low, high):
    """The largest number for which the document is no larger than a file may be."""
    while low + 1 < high:
        middle = (low + high) // 2
        if len(compact(make(middle))) <= LARGEST:
            low = middle
        else:
            high = middle
    return low


def commands_for(name, documents, folder, *ends):
    """Writes the files of a setup into a folder of this name, and returns the commands with how each ends."""
    (folder / name).mkdir()
    paths = {f"shop{k}": f"{name}/source{k}.json" for k in range(SOURCES)}
    setup = {"arazzo": f"{name}/description.json", "sources": paths}
    (folder / f"{name}.json").write_text(compact(setup))
    files = [setup["arazzo"], *paths.values()][: len(documents)]
    for file, document in zip(files, documents):
        (folder / file).write_text(compact(document))
    return {
        ("check", name): ([str(PROGRAM), "check", f"{name}.json"], *ends),
        ("json reads all", name): ([sys.executable, "-c", READ_ALL, *files], b""),
    }


def documents(steps, step_items, operations, items):
    """The description and the sources."""
    return [description(steps, step_items), *(source(f"shop{k}", operations, items) for k in range(SOURCES))]


def main():
    # `rt run` proves and builds the program where that is due; with no words it prints `words`.
    build = subprocess.run(["rt", "run"], cwd=CRATE, stdout=subprocess.PIPE, stderr=subprocess.DEVNULL)
    if build.stdout != b"words\n":
        sys.exit(f"the program could not be built; `rt run` in {CRATE} tells why")
    step_items = largest(lambda n: description(STEPS, n), 1, 4_000)
    items = largest(lambda n: source("shop0", OPERATIONS, n), 1, 200)
    with tempfile.TemporaryDirectory() as place:
        folder = pathlib.Path(place)
        large, small = documents(STEPS, step_items, OPERATIONS, items), documents(1, 1, 1, 1)
        commands = commands_for("large", large, folder, b"ok\n") | commands_for("small", small, folder, b"ok\n")
        many = description(SOURCES * OPERATIONS, 0)
        commands |= commands_for("many", [many], folder, b"refused 0 NotBuilt arazzo#/workflows/1\n", 3)
        size = sum(file.stat().st_size for file in (folder / "large").iterdir())
        cost = medians(commands, RUNS, folder)
    start = {which: cost[which, "small"][0] for which, _ in commands}
    time = {which: cost[which, "large"][0] - start[which] for which in start}
    many = {which: cost[which, "many"][0] - start[which] for which in start}
    peak = cost["check", "large"][1] - cost["check", "small"][1]
    print(f"check of {size} bytes: {time['check']:.3f} s; Python's json reads all: {time['json reads all']:.3f} s")
    print(f"check over Python's json: {time['check'] / time['json reads all']:.2f} (aim: at most 3)")
    print(f"a description of {SOURCES * OPERATIONS} steps by itself: {many['check'] / many['json reads all']:.2f}")
    print(f"peak memory over the files' size: {peak / size:.1f}")


main()
