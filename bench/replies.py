#!/usr/bin/env python3
"""Runs the program `arz_probe` on replies of a peer and prints

- the time of `reply` in pieces of 16 KiB, at a reply with a body of 1 MiB of a stated length, in chunks of
  4 KiB, and to the close, over that of Python's `http.client` at parsing the same bytes from memory, and
  over that of copying them once; what the program takes for a reply with no body, its start, is taken off,
  and reading the file is not;
- the time of `reply` in pieces of one byte, at a head of 64 KiB with lines of 1,000 bytes and one with
  lines of three bytes, in seconds, start and all;
- the same at a body of 1 MiB and at one of half of that, over each other, in each framing: 2 where the time
  grows as the body does,

from medians of 21 runs in turn, or of five where a run takes long. Times are processor seconds, those of the
operating system too.
"""

import http.client
import io
import pathlib
import statistics
import subprocess
import sys
import tempfile
import time

from measuring import medians

TOP = pathlib.Path(__file__).resolve().parent.parent
CRATE = TOP / "crates" / "arz_probe"
PROGRAM = CRATE / "out" / "arz_probe"
SIZE = 1024 * 1024
PIECE = "16384"
RUNS = 21
LONG_RUNS = 5
TIMES = 50
STATUS_LINE = b"HTTP/1.1 200 OK\r\n"


class Peer:
    """What `http.client` takes for a socket."""

    def __init__(self, sent):
        self.sent = sent

    def makefile(self, mode):
        return io.BytesIO(self.sent)


def chunk(data):
    """The bytes as one chunk."""
    return b"%x\r\n%s\r\n" % (len(data), data) if data else b""


def replies(size):
    """A reply in each framing whose body's section has about so many bytes, and what is printed of it."""
    body = bytes(range(256)) * (size // 256)
    most = body[: size - 4096]
    counted = STATUS_LINE + b"Content-Length: %d\r\n\r\n" % len(body) + body
    chunks = b"".join(chunk(most[at : at + 4096]) for at in range(0, len(most), 4096)) + b"0\r\n\r\n"
    chunked = STATUS_LINE + b"Transfer-Encoding: chunked\r\n\r\n" + chunks
    to_close = STATUS_LINE + b"\r\n" + body
    return {
        "counted": (counted, b"done %d 200 %d false\n" % (len(counted), len(body)), body),
        "chunked": (chunked, b"done %d 200 %d false\n" % (len(chunked), len(most)), most),
        "to the close": (to_close, b"done %d 200 %d true\n" % (len(to_close), len(body)), body),
    }


def heads():
    """Heads of 65,536 bytes, and what is printed of them. A head has at most 128 header lines."""
    line = b"a: " + 995 * b"x" + b"\r\n"
    rest = 65536 - len(STATUS_LINE) - 2
    long_lines = line * (rest // len(line))
    long_lines += b"b: " + b"y" * (rest - len(long_lines) - 5) + b"\r\n"
    long_head = STATUS_LINE + long_lines + b"\r\n"
    short_head = STATUS_LINE + b"a:\n" * (rest // 3) + b"\r\n"
    return {
        "lines of 1,000 bytes": (long_head, b"done 65536 200 0 true\n"),
        "lines of three bytes": (short_head, b"HeadTooLarge 0\n"),
    }


def python_seconds(sent, body):
    """How long `http.client` takes for the bytes, from memory."""
    seconds = []
    for _ in range(TIMES):
        begun = time.process_time()
        reply = http.client.HTTPResponse(Peer(sent))
        reply.begin()
        read = reply.read()
        seconds.append(time.process_time() - begun)
        if read != body:
            sys.exit("http.client read another body")
    return statistics.median(seconds)


def copy_seconds(sent):
    """How long one copy of the bytes takes."""
    seconds = []
    for _ in range(TIMES):
        begun = time.process_time()
        bytearray(sent)
        seconds.append(time.process_time() - begun)
    return statistics.median(seconds)


def reply_seconds(folder, piece, cases, runs):
    """The medians of seconds by name, of `reply` at these bytes, which have names."""
    commands = {}
    for at, (name, (sent, printed, *_)) in enumerate(cases.items()):
        (folder / f"reply{at}").write_bytes(sent)
        words = [str(PROGRAM), "reply", piece, f"reply{at}"]
        # A fault is printed with another status than 0.
        if not printed.startswith(b"done"):
            words = ["/bin/sh", "-c", '"$@"; exit 0', "sh", *words]
        commands[name] = (words, printed)
    return {name: seconds for name, (seconds, _) in medians(commands, runs, folder).items()}


def main():
    # `rt run` proves and builds the program where that is due; with no words it prints `words`.
    build = subprocess.run(["rt", "run"], cwd=CRATE, stdout=subprocess.PIPE, stderr=subprocess.DEVNULL)
    if build.stdout != b"words\n":
        sys.exit(f"the program could not be built; `rt run` in {CRATE} tells why")
    whole, half = replies(SIZE), replies(SIZE // 2)
    nothing = {"nothing": (STATUS_LINE + b"Content-Length: 0\r\n\r\n", b"done 38 200 0 false\n")}
    with tempfile.TemporaryDirectory() as place:
        folder = pathlib.Path(place)
        pieces = reply_seconds(folder, PIECE, nothing | whole, RUNS)
        one_byte = reply_seconds(folder, "1", nothing | whole, LONG_RUNS)
        one_byte_half = reply_seconds(folder, "1", half, LONG_RUNS)
        of_heads = reply_seconds(folder, "1", heads(), LONG_RUNS)
    for name, (sent, _, body) in whole.items():
        taken = pieces[name] - pieces["nothing"]
        python, copy = python_seconds(sent, body), copy_seconds(sent)
        print(f"{name}, {len(sent)} bytes in pieces of {PIECE}: {taken * 1000:.2f} ms; http.client {python * 1000:.2f} ms, a copy {copy * 1000:.2f} ms")
        print(f"  over http.client: {taken / python:.2f}; over a copy: {taken / copy:.2f}")
    for name, seconds in of_heads.items():
        print(f"a head of 65536 bytes, {name}, in pieces of one byte: {seconds:.3f} s")
    start = one_byte["nothing"]
    for name in whole:
        first, second = one_byte_half[name] - start, one_byte[name] - start
        print(f"{name} in pieces of one byte: {second:.3f} s, over half the body: {second / first:.2f}")


main()
