#!/usr/bin/env python3
"""Runs the program with large conditions, many criteria and wide queries, and prints

- the time of `check` and `mock` on a description with a condition of 1,000,000 bytes, and on one with a condition of
  100,000 terms, over that of Python's json module at reading the description, and how the time grows from 25,000 terms;
- the time of 51,200 evaluations of one criterion, 200 at each of 256 steps, over that of Python's comparisons, or of
  its re module, on the same values as often. It is what `mock` takes more than `check`, less the same of a description
  with the criteria under a name that is passed over; so the machine's reading of each criterion is in it;
- the time of a filter with a query that begins at the root, over that of a filter without one, over 100,000 numbers;
- the memory of queries that go through many nodes or could keep much of them, above what the same reply takes with a
  simple criterion, and of the whole run,

each from medians of five runs in turn. Times are processor seconds without those of the smallest run, memory is the
largest resident set. A word, where one is given, is the path of a program that is run as it is; otherwise the proved
program is built first.
"""

import json
import pathlib
import subprocess
import sys
import tempfile

from measuring import PYTHON_READS, medians

TOP = pathlib.Path(__file__).resolve().parent.parent
CRATE = TOP / "crates" / "arz_program"
STEPS, EACH, RUNS = 256, 200, 5
MIB = 1024 * 1024
INFO = {"title": "t", "version": "1"}
PATTERN = "^2[0-9]+$"
ITEM = {"status": 200, "headers": {"X-Kind": "gold"}, "body": {"a": [1, 2, 3]}}
CRITERIA = {
    "a condition": {"condition": "$statusCode == 200 && $response.header.X-Kind == 'GOLD'"},
    "a pattern": {"condition": PATTERN, "context": "$statusCode", "type": "regex"},
    "a query": {"condition": "$.a[?@ > 2]", "context": "$response.body", "type": "jsonpath"},
}
# What Python does as often on the same values.
RIVALS = {
    "a condition": "status == 200 and kind.casefold() == 'GOLD'.casefold()",
    "a pattern": f"re.search({PATTERN!r}, str(status)) is not None",
    "a query": "any(n > 2 for n in body['a'])",
}
EVALUATES = """
import json, re, sys
item = json.loads(sys.argv[1])
status, kind, body = item["status"], item["headers"]["X-Kind"], item["body"]
print(sum({test} for _ in range(int(sys.argv[2]))))
"""


def compact(value):
    """The compact text of a value."""
    return json.dumps(value, separators=(",", ":"))


def description(steps, member, criteria):
    """The description of so many steps, each with these criteria under the name of the member."""
    listed = []
    for number in range(steps):
        parameters = [{"name": "id", "in": "path", "value": 7}]
        listed.append({"stepId": f"s{number}", "operationId": "get", "parameters": parameters, member: criteria})
    sources = [{"name": "pets", "url": "pets.json"}]
    workflows = [{"workflowId": "main", "steps": listed}]
    return {"arazzo": "1.0.1", "info": INFO, "sourceDescriptions": sources, "workflows": workflows}


def write(folder, name, document, replies):
    """Writes the files of a run under this name, and returns the words of `mock`, without the program."""
    (folder / f"{name}.description.json").write_text(compact(document))
    (folder / f"{name}.json").write_text(compact({"arazzo": f"{name}.description.json"}))
    (folder / f"{name}.replies.json").write_text(compact(replies))
    return [f"{name}.json", f"{name}.replies.json"]


def report(count, ending):
    """What a run of so many requests prints."""
    lines = [f"{n + 1} GET http://localhost:8080/pets/7 200 mock\n" for n in range(count)]
    return ("".join(lines) + f"{ending}\n{{}}\n").encode()


def one_step(program, folder, name, criterion, replies, ending="completed"):
    """The commands `check` and `mock` over a step with one criterion, by name."""
    words = write(folder, name, description(1, "successCriteria", [criterion]), replies)
    status = 0 if ending == "completed" else 1
    return {
        ("check", name): ([program, "check", words[0]], b"ok\n"),
        ("mock", name): ([program, "mock", *words], report(1, ending), status),
    }


def large_conditions(program, folder):
    """Large conditions against Python's reading of the same descriptions."""
    terms = lambda count: " && ".join(["$statusCode == 200"] * count)
    conditions = {
        "start": "true",
        "a condition of 1,000,000 bytes": "$method != '" + "a" * 1_000_000 + "'",
        "100,000 terms": terms(100_000),
        "25,000 terms": terms(25_000),
    }
    commands = {}
    for name, condition in conditions.items():
        commands |= one_step(program, folder, name, {"condition": condition}, [ITEM])
        commands["json reads", name] = ([sys.executable, "-c", PYTHON_READS, f"{name}.description.json"], b"")
    cost = medians(commands, RUNS, folder)
    over = lambda which, name: max(cost[which, name][0] - cost[which, "start"][0], 1e-6)
    for name in list(conditions)[1:3]:
        python = over("json reads", name)
        for which in ("check", "mock"):
            took = over(which, name)
            print(f"{which} of {name}: {took:.3f} s, {took / python:.1f} of Python's json at reading the description")
    for which in ("check", "mock"):
        growth = over(which, "100,000 terms") / over(which, "25,000 terms")
        print(f"{which} of 100,000 terms over 25,000: {growth:.1f} (4 where it is linear)")


def evaluations(program, folder, name):
    """Many evaluations of one criterion against Python's."""
    count, replies = STEPS * EACH, [ITEM] * STEPS
    commands = {}
    for member in ("successCriteria", "x-criteria"):
        words = write(folder, member, description(STEPS, member, [CRITERIA[name]] * EACH), replies)
        commands["check", member] = ([program, "check", words[0]], b"ok\n")
        commands["mock", member] = ([program, "mock", *words], report(STEPS, "completed"))
    python = [sys.executable, "-c", EVALUATES.replace("{test}", RIVALS[name]), compact(ITEM)]
    commands["Python", "all"] = ([*python, str(count)], f"{count}\n".encode())
    commands["Python", "none"] = ([*python, "0"], b"0\n")
    cost = {key: seconds for key, (seconds, _) in medians(commands, RUNS, folder).items()}
    more = {member: cost["mock", member] - cost["check", member] for member in ("successCriteria", "x-criteria")}
    took = max(more["successCriteria"] - more["x-criteria"], 1e-6)
    rival = max(cost["Python", "all"] - cost["Python", "none"], 1e-6)
    rate = f"{count / took:,.0f} a second"
    print(f"{count} evaluations of {name}: {took:.3f} s, {rate}, {took / rival:.1f} of Python's")


def absolute_queries(program, folder):
    """A query inside a filter that begins at the root, against a filter without one, each above a simple criterion."""
    replies = [{"status": 200, "body": list(range(100_000))}]
    queries = {"plain": None, "$[?@ > 1]": "completed", "$[?count($[*]) > @]": "completed", "$[?count($[*]) < @]": "broke"}
    commands = {}
    for number, (query, ending) in enumerate(queries.items()):
        criterion = {"condition": query, "context": "$response.body", "type": "jsonpath"}
        if ending is None:
            criterion, ending = {"condition": "$response.body != 1"}, "completed"
        found = one_step(program, folder, f"filter{number}", criterion, replies, ending)
        commands[query] = found["mock", f"filter{number}"]
    cost = {query: seconds for query, (seconds, _) in medians(commands, RUNS, folder).items()}
    over = lambda query: max(cost[query] - cost["plain"], 1e-6)
    for query in list(queries)[2:]:
        print(f"{query} over 100,000 numbers: {over(query):.3f} s, {over(query) / over('$[?@ > 1]'):.1f} of $[?@ > 1] (aim: at most 10)")


def wide_queries(program, folder):
    """The memory of queries over large replies."""
    deep = [0] * 8_000
    for _ in range(120):
        deep = [deep]
    queries = {
        "$.*[*]": ({"n" * 2_000_000: [0] * 900_000}, "$.*[*]", "completed", "a name of 2,000,000 bytes and 900,000 zeros"),
        "$..*..*": (deep, "$..*..*", "completed", "120 lists in one another and 8,000 zeros"),
        "forty": ([[0] * 1_000_000], "$[" + ",".join("0" * 40) + "]..a", "broke", "1,000,000 zeros"),
    }
    for name, (body, query, ending, what) in queries.items():
        replies = [{"status": 200, "body": body}]
        criterion = {"condition": query, "context": "$response.body", "type": "jsonpath"}
        plain = {"condition": "$response.body != 1"}
        commands = one_step(program, folder, "query", criterion, replies, ending)
        commands |= one_step(program, folder, "plain", plain, replies)
        cost = medians(commands, RUNS, folder)
        seconds, peak = cost["mock", "query"]
        more = peak - cost["mock", "plain"][1]
        shown = query if len(query) < 20 else query[:7] + " .. forty times]..a"
        print(f"{shown} over {what}: {seconds:.2f} s, {peak / MIB:.0f} MiB, {more / MIB:.0f} MiB above a simple criterion")
    print("(aims: at most 100 MB above for the first, 300 MB whole for the others)")


def main():
    program = str(pathlib.Path(sys.argv[1]).resolve() if len(sys.argv) > 1 else CRATE / "out" / "arz_program")
    if len(sys.argv) == 1:
        # `rt run` proves and builds the program where that is due; with no words it prints `words`.
        build = subprocess.run(["rt", "run"], cwd=CRATE, stdout=subprocess.PIPE, stderr=subprocess.DEVNULL)
        if build.stdout != b"words\n":
            sys.exit(f"the program could not be built; `rt run` in {CRATE} tells why")
    with tempfile.TemporaryDirectory() as place:
        folder = pathlib.Path(place)
        server = [{"url": "http://localhost:8080"}]
        paths = {"/pets/{id}": {"get": {"operationId": "get"}}}
        (folder / "pets.json").write_text(compact({"openapi": "3.1.0", "info": INFO, "servers": server, "paths": paths}))
        large_conditions(program, folder)
        for name in CRITERIA:
            evaluations(program, folder, name)
        absolute_queries(program, folder)
        wide_queries(program, folder)


main()
