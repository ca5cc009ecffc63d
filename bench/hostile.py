#!/usr/bin/env python3
"""Runs `check` on hostile documents, each once with a number of parts and once with twice as many, compares what
it prints with the refusal that is due, and prints for each

- the program's time over that of Python's json module at reading the same files, and
- how that ratio grows when the document doubles, which is about 1 where time is linear in the files,

from medians of three runs in turn. What each side takes for a small setup, its start, is taken off. Times are
processor seconds.
"""

import json
import pathlib
import subprocess
import sys
import tempfile

from measuring import medians

TOP = pathlib.Path(__file__).resolve().parent.parent
CRATE = TOP / "crates" / "arz_program"
PROGRAM = CRATE / "out" / "arz_program"
RUNS = 3
INFO = {"title": "t", "version": "1"}
STEP = {"stepId": "s", "operationId": "get"}
READ_ALL = "import json,sys; [json.load(open(path,'rb')) for path in sys.argv[1:]]"


def compact(value):
    """The compact text of a value."""
    return json.dumps(value, separators=(",", ":"))


def workflow(identifier, steps, **more):
    """A workflow of these steps."""
    return {"workflowId": identifier, "steps": steps} | more


def steps(count):
    """So many steps."""
    return [{"stepId": f"s{k}", "operationId": "get"} for k in range(count)]


def description(workflows, **more):
    """A description of these workflows."""
    source = {"name": "pets", "url": "source.json"}
    return {"arazzo": "1.0.1", "info": INFO, "sourceDescriptions": [source], "workflows": workflows} | more


def nested(depth):
    """An empty list, in so many lists."""
    return "[" * depth + "]" * depth


def overlay(actions):
    """An overlay of these actions."""
    return {"overlay": "1.0.0", "info": INFO, "actions": actions}


ONE = description([workflow("main", [STEP])])
SOURCE = {"openapi": "3.1.0", "info": INFO, "servers": [{"url": "http://localhost"}], "paths": {"/": {"get": {"operationId": "get"}}}}


def shapes():
    """The hostile documents: a name, what makes the files of one with so many parts, the lesser number of parts,
    and what is printed."""
    arazzo = lambda document: {"description.json": compact(document)}
    with_overlay = lambda document, actions: arazzo(document) | {"overlay.json": compact(overlay(actions))}
    yield "workflows of 256 steps", lambda n: arazzo(description([workflow(f"w{k}", steps(256)) for k in range(n)])), 64, "refused 0 NotBuilt arazzo#/workflows/1"
    yield "steps", lambda n: arazzo(description([workflow("main", steps(n))])), 50_000, "refused 24 OverLimit arazzo#/workflows/0/steps"
    yield "members with one name", lambda n: {"description.json": "{" + ",".join(['"a":1'] * n) + "}"}, 50_000, "refused 3 Shape arazzo#"
    everyone = lambda n: [f"w{k}" for k in range(n)]
    yield "dependencies of all on all", lambda n: arazzo(description([workflow(w, [STEP], dependsOn=everyone(n)) for w in everyone(n)])), 128, "refused 9 DependencyCycle arazzo#/workflows/0/dependsOn"
    circle = lambda n: {f"c{k}": {"name": "a", "value": 1, "reference": f"$components.parameters.c{(k + 1) % n}"} for k in range(n)}
    yield "components that name each other", lambda n: arazzo(description([workflow("main", [STEP])], components={"parameters": circle(n)})), 20_000, "ok"
    yield "actions of an overlay", lambda n: with_overlay(ONE, [{"target": "$.info", "update": {f"x-{k}": k}} for k in range(n)]), 5_000, "ok"
    items = lambda n: ONE | {"x-items": [{} for _ in range(n)]}
    yield "places of an update", lambda n: with_overlay(items(n), [{"target": "$['x-items'][*]", "update": {"a": 1}}]), 50_000, "ok"
    yield "places of a removal", lambda n: with_overlay(items(n), [{"target": "$['x-items'][*]", "remove": True}]), 50_000, "ok"
    yield "levels, one too many", lambda n: {"description.json": nested(n)}, 128, "refused 2 NotJson arazzo#"
    yield "levels, as many as are read", lambda n: {"description.json": nested(127)}, 127, "refused 3 Shape arazzo#"


def commands_for(name, files, wanted, folder):
    """Writes the files of a setup into a folder of this name, and returns the commands with what each prints."""
    (folder / name).mkdir()
    setup = {"arazzo": f"{name}/description.json"}
    if "overlay.json" in files:
        setup["overlays"] = [{"path": f"{name}/overlay.json"}]
    paths = [f"{name}/{file}" for file in files]
    for path, text in zip(paths, files.values()):
        (folder / path).write_text(text)
    (folder / f"{name}.json").write_text(compact(setup))
    return {
        ("check", name): (f"{name}.json", wanted.encode() + b"\n"),
        ("json", name): ([sys.executable, "-c", READ_ALL, *paths], b""),
    }


def main():
    # `rt run` proves and builds the program where that is due; with no words it prints `words`.
    build = subprocess.run(["rt", "run"], cwd=CRATE, stdout=subprocess.PIPE, stderr=subprocess.DEVNULL)
    if build.stdout != b"words\n":
        sys.exit(f"the program could not be built; `rt run` in {CRATE} tells why")
    # A refusal ends with status 3, which a shell turns into 0.
    checks = lambda setup: ["/bin/sh", "-c", f"'{PROGRAM}' check {setup} || [ $? = 3 ]"]
    for name, make, parts, wanted in shapes():
        with tempfile.TemporaryDirectory() as place:
            folder = pathlib.Path(place)
            (folder / "source.json").write_text(compact(SOURCE))
            commands = {}
            for which, files, printed in (("start", {"description.json": compact(ONE)}, "ok"), ("single", make(parts), wanted), ("double", make(2 * parts), wanted)):
                commands |= commands_for(which, files, printed, folder)
            commands = {key: (checks(words) if key[0] == "check" else words, said) for key, (words, said) in commands.items()}
            cost = medians(commands, RUNS, folder)
        time = {key: cost[key][0] - cost[key[0], "start"][0] for key in commands}
        ratio = {size: time["check", size] / max(time["json", size], 0.001) for size in ("single", "double")}
        print(f"{name}, {2 * parts}: {time['check', 'double']:.3f} s; over Python's json {ratio['double']:.2f}; twice the parts take {time['check', 'double'] / max(time['check', 'single'], 0.001):.2f} times as long")


main()
