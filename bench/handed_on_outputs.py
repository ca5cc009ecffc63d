#!/usr/bin/env python3
"""Runs a workflow of 256 steps whose outputs are handed on from step to step, and one of 16 steps, and
prints the time for each step of the long one over that of the short one.

Each step gives 100 outputs, and takes 100 values of the step before into its path. Times are processor
seconds, medians of nine runs in turn; what a run takes with one step is taken off both.
"""

import json
import pathlib
import statistics
import subprocess
import sys
import tempfile

from measuring import measured

TOP = pathlib.Path(__file__).resolve().parent.parent
PROGRAM = TOP / "crates" / "arz_program" / "out" / "arz_program"
LONG, SHORT, OUTPUTS, RUNS = 256, 16, 100, 9


def step(number):
    """The step of this number: its path takes what the step before gave."""
    before = f"$steps.step{number - 1}.outputs" if number else "$inputs"
    names = [f"v{k}" for k in range(OUTPUTS)]
    return {
        "stepId": f"step{number}",
        "operationId": "get",
        "parameters": [{"name": name, "in": "path", "value": f"{before}.{name}"} for name in names],
        "outputs": {name: f"$response.body.{name}" for name in names},
    }


def write(folder, steps):
    """Writes a setup of so many steps, with its replies, and returns the folder."""
    folder.mkdir()
    names = [f"v{k}" for k in range(OUTPUTS)]
    values = {name: f"{name} of a step, with some text" for name in names}
    path = "/" + "/".join("{" + name + "}" for name in names)
    last = f"$steps.step{steps - 1}.outputs"
    workflow = {
        "workflowId": "main",
        "steps": [step(number) for number in range(steps)],
        "outputs": {name: f"{last}.{name}" for name in names},
    }
    info = {"title": "t", "version": "1"}
    source = {"name": "api", "url": "api.json", "type": "openapi"}
    files = {
        "s.json": {"arazzo": "a.json", "inputs": values},
        "a.json": {"arazzo": "1.0.1", "info": info, "sourceDescriptions": [source], "workflows": [workflow]},
        "api.json": {
            "openapi": "3.1.0",
            "info": info,
            "servers": [{"url": "http://localhost"}],
            "paths": {path: {"get": {"operationId": "get"}}},
        },
        "r.json": [{"status": 200, "body": values}] * steps,
    }
    for name, content in files.items():
        (folder / name).write_text(json.dumps(content))
    return folder


def seconds(folder, steps):
    """Runs the workflow in this folder, and returns its processor seconds."""
    time, _, printed = measured([PROGRAM, "mock", "s.json", "r.json"], folder)
    if printed.count(b"\n") != steps + 2:
        sys.exit(f"the run of {steps} steps wrote {printed[:200]!r}")
    return time


def main():
    # `arz` proves and builds the program where that is due; with no words it ends with status 2.
    if subprocess.run([TOP / "arz"], stdout=subprocess.DEVNULL).returncode != 2:
        sys.exit("the program could not be built")
    with tempfile.TemporaryDirectory() as name:
        folders = {steps: write(pathlib.Path(name) / str(steps), steps) for steps in (1, SHORT, LONG)}
        times = {steps: [] for steps in folders}
        for _ in range(RUNS):
            for steps, folder in folders.items():
                times[steps].append(seconds(folder, steps))
    one, short, long = (statistics.median(times[steps]) for steps in (1, SHORT, LONG))
    print(f"{SHORT} steps: {short:.4f} s; {LONG} steps: {long:.4f} s; one step: {one:.4f} s")
    each_short = max(short - one, 1e-6) / (SHORT - 1)
    each_long = (long - one) / (LONG - 1)
    print(f"time for each step, {LONG} steps over {SHORT}: {each_long / each_short:.2f} (aim: at most 1.5)")


main()
