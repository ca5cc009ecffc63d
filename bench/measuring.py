"""What a command costs, and the yardsticks: a module of the benchmarks, which are the other scripts of
this folder."""

import pathlib
import shutil
import statistics
import subprocess
import sys

# A small parent, so that the times are those of the command alone, and since a process counts the
# memory that its parent had when it was started.
LAUNCH = """
import os, sys
child = os.posix_spawn(sys.argv[1], sys.argv[1:], os.environ)
_, status, usage = os.wait4(child, 0)
code = os.waitstatus_to_exitcode(status)
print(code, usage.ru_utime + usage.ru_stime, usage.ru_maxrss, file=sys.stderr)
"""

PYTHON_READS = "import json,sys; json.loads(open(sys.argv[1],'rb').read())"

# Where Debian puts the sources of its Rust crates (librust-serde-json-dev).
RUST_CRATES = pathlib.Path("/usr/share/cargo/registry")
RUST_READS = """fn main() {
    let path = std::env::args().nth(1).expect("a path");
    let bytes = std::fs::read(path).expect("a file");
    let value: serde_json::Value = serde_json::from_slice(&bytes).expect("a JSON text");
    std::process::exit(if value.is_null() { 1 } else { 0 });
}
"""
RUST_PACKAGE = '[package]\nname = "reads"\nversion = "0.0.0"\nedition = "2021"\n[dependencies]\nserde_json = "1"\n'
RUST_SOURCES = f'[source.crates-io]\nreplace-with = "debian"\n[source.debian]\ndirectory = "{RUST_CRATES}"\n'


def measured(command, folder=None, status=0):
    """Runs a command in a folder, which is to end with this status, and returns its processor seconds,
    its peak memory in bytes, and what it printed."""
    launch = [sys.executable, "-I", "-S", "-c", LAUNCH, *map(str, command)]
    run = subprocess.run(launch, cwd=folder, capture_output=True)
    ended, seconds, peak = run.stderr.split()[-3:]
    if int(ended) != status:
        sys.exit(f"{command[0]} ended with status {int(ended)} and wrote {run.stdout[:200]!r}")
    return float(seconds), int(peak) * 1024, run.stdout


def medians(commands, runs, folder=None):
    """Runs the commands, which have names, in turn and so many times. Each is a list of words, what it is
    to print, or a test of that, and perhaps the status that it is to end with. Returns the medians of
    seconds and of bytes by name."""
    costs = {name: [] for name in commands}
    for _ in range(runs):
        for name, (words, wanted, *status) in commands.items():
            seconds, peak, printed = measured(words, folder, *status)
            if not (wanted(printed) if callable(wanted) else printed == wanted):
                sys.exit(f"{words[0]} wrote {printed[:200]!r}")
            costs[name].append((seconds, peak))
    return {name: tuple(map(statistics.median, zip(*several))) for name, several in costs.items()}


def rust_reader():
    """The program that reads a file by `serde_json` as Rust's own compiler builds it, or None where
    cargo or the sources aren't installed."""
    if not shutil.which("cargo") or not list(RUST_CRATES.glob("serde_json-*")):
        return None
    folder = pathlib.Path(__file__).resolve().parent / "out" / "reads"
    for file, text in {"Cargo.toml": RUST_PACKAGE, ".cargo/config.toml": RUST_SOURCES, "src/main.rs": RUST_READS}.items():
        (folder / file).parent.mkdir(parents=True, exist_ok=True)
        (folder / file).write_text(text)
    built = subprocess.run(["cargo", "build", "--release", "--offline", "--quiet"], cwd=folder, capture_output=True)
    return folder / "target" / "release" / "reads" if built.returncode == 0 else None


def readers():
    """The yardsticks of reading, by name: words to which the path of a JSON file is added. Each reads
    the file and prints nothing."""
    found = {"Python's json": [sys.executable, "-c", PYTHON_READS]}
    if shutil.which("jq"):
        found["jq"] = [shutil.which("jq"), "empty"]
    rust = rust_reader()
    if rust:
        found["serde_json in Rust"] = [str(rust)]
    return found
