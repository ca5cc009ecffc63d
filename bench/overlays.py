#!/usr/bin/env python3
"""Runs the program `arz_probe` with an overlay of 1,000 actions over a JSON document of close to 4 MiB, and
prints its time over that of Python's json module at reading both files, from medians of five runs in turn.

The document is a description of many operations. Half of the actions merge an object into one operation, a
quarter append to one of its lists, and the others remove one. What each side takes for a document of one
object and an overlay of one action, its start, is taken off. Times are processor seconds. What the program
prints is compared with what this script makes of the document itself.
"""

import copy
import json
import pathlib
import subprocess
import sys
import tempfile

from measuring import medians

TOP = pathlib.Path(__file__).resolve().parent.parent
CRATE = TOP / "crates" / "arz_probe"
PROGRAM = CRATE / "out" / "arz_probe"
LARGEST = 4 * 1024 * 1024
ACTIONS, RUNS = 1_000, 5
INFO = {"title": "t", "version": "1"}
READ_BOTH = "import json,sys; [json.load(open(path,'rb')) for path in sys.argv[1:]]"


def operation(number):
    """The operation of this number."""
    return {
        "description": f"operation number {number}, with some text to make it of a usual size",
        "operationId": f"operation{number}",
        "parameters": [{"in": "path", "name": "id", "required": True, "schema": {"type": "string"}}],
        "responses": {"200": {"description": "ok"}, "404": {"description": "none"}},
        "tags": ["a", "b"],
    }


def described():
    """The document: as many operations as there is room for, in groups of paths."""
    groups, size = {}, 100
    for number in range(LARGEST):
        size += len(compact(operation(number))) + 40
        if size > LARGEST:
            return {"groups": groups, "info": INFO, "openapi": "3.1.0"}, number
        groups.setdefault(f"g{number % 100:02}", {})[f"p{number:06}"] = operation(number)


def overlaid(document, count):
    """The overlay, and what it makes of the document."""
    result, actions = copy.deepcopy(document), []
    for k in range(ACTIONS):
        number = k * (count // ACTIONS)
        group, path = f"g{number % 100:02}", f"p{number:06}"
        place = f"$.groups.{group}.{path}"
        if k % 4 < 2:
            update = {"summary": f"summary {k}", "responses": {"500": {"description": "fault"}}, "tags": ["c"]}
            actions.append({"target": place, "update": update})
            changed = result["groups"][group][path]
            changed["summary"] = update["summary"]
            changed["responses"] |= update["responses"]
            changed["tags"] += update["tags"]
        elif k % 4 == 2:
            update = {"in": "header", "name": f"X-{k}"}
            actions.append({"target": place + ".parameters", "update": update})
            result["groups"][group][path]["parameters"].append(update)
        else:
            actions.append({"target": place, "remove": True})
            del result["groups"][group][path]
    return {"overlay": "1.0.0", "info": INFO, "actions": actions}, result


def compact(value):
    """The compact text of a value, with the names of members in order."""
    return json.dumps(value, separators=(",", ":"), sort_keys=True)


def commands_for(name, overlay, document, result, folder):
    """Writes both files, and returns the commands over them with what each prints."""
    files = [f"{name}.overlay.json", f"{name}.json"]
    for file, value in zip(files, (overlay, document)):
        (folder / file).write_text(compact(value))
    return {
        ("overlay", name): ([str(PROGRAM), "overlay", *files], compact(result).encode() + b"\n"),
        ("json reads both", name): ([sys.executable, "-c", READ_BOTH, *files], b""),
    }


def main():
    # `rt run` proves and builds the program where that is due; with no words it prints `words`.
    build = subprocess.run(["rt", "run"], cwd=CRATE, stdout=subprocess.PIPE, stderr=subprocess.DEVNULL)
    if build.stdout != b"words\n":
        sys.exit(f"the program could not be built; `rt run` in {CRATE} tells why")
    document, count = described()
    overlay, result = overlaid(document, count)
    one = {"overlay": "1.0.0", "info": INFO, "actions": [{"target": "$", "update": {"a": 1}}]}
    with tempfile.TemporaryDirectory() as place:
        folder = pathlib.Path(place)
        commands = commands_for("document", overlay, document, result, folder)
        commands |= commands_for("start", one, {}, {"a": 1}, folder)
        cost = medians(commands, RUNS, folder)
    time = {which: cost[which, "document"][0] - cost[which, "start"][0] for which, _ in commands}
    print(f"{ACTIONS} actions over {count} operations: {time['overlay']:.3f} s; Python's json reads both: {time['json reads both']:.3f} s")
    print(f"overlay over Python's json: {time['overlay'] / time['json reads both']:.2f} (aim: at most 10)")


main()
