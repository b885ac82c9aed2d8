#!/usr/bin/env python3
"""Runs the program on outputs that take nothing, or not all: each call must end by itself, with status 5.

usage: outputs.py [PROGRAM]    (if left out, crates/bus1sh/out/bus1sh, which `rt run` builds)

The standard output is closed, or a full device, or a pipe that nobody reads any more, from the start or after its first
bytes. Each is tried with the usage line, with `play` of a short report, and with `play` and `migrate` of a script whose
report and whose form with cookies no pipe holds.

It prints a line for each call that fails, and last how many passed and failed. Its status is 1 if one failed, else 0.
"""

import os
import subprocess
import sys
from collections.abc import Callable
from pathlib import Path

sys.dont_write_bytecode = True  # so that no folder of compiled files stands beside rows.py

from rows import HERE, PROGRAM, SECONDS, input_of, read_row, run

WRITE_FAULT = 5
LONG = 100_000


def long_script(program: Path) -> bytes:
    """A script of which each command adds a line to the report."""
    text = "bus1 script 1\nclock 0\npeer 0 8 1 1 1\ncommands 0\n" + "recv\n" * LONG + "turns -\n"
    status, script = run(program, ["asm"], text.encode("ascii"))
    if status != 0:
        raise ValueError(f"asm ended with status {status} and {script!r}")
    return script


def start(program: Path, words: list[str], given: bytes, output: int | None) -> subprocess.Popen:
    """A call with this standard output, or with none; its input was all written, or it ended before."""
    close = (lambda: os.close(1)) if output is None else None
    child = subprocess.Popen([program, *words], stdin=subprocess.PIPE, stdout=output, preexec_fn=close)
    try:
        child.stdin.write(given)
        child.stdin.close()
    except BrokenPipeError:
        pass
    return child


def closed(program: Path, words: list[str], given: bytes) -> int:
    return start(program, words, given, None).wait(SECONDS)


def full(program: Path, words: list[str], given: bytes) -> int:
    with open("/dev/full", "wb") as device:
        return start(program, words, given, device.fileno()).wait(SECONDS)


def unread(program: Path, words: list[str], given: bytes) -> int:
    reader, writer = os.pipe()
    os.close(reader)
    child = start(program, words, given, writer)
    os.close(writer)
    return child.wait(SECONDS)


def left(program: Path, words: list[str], given: bytes) -> int:
    reader, writer = os.pipe()
    child = start(program, words, given, writer)
    os.close(writer)
    os.read(reader, 10)
    os.close(reader)
    return child.wait(SECONDS)


def main() -> int:
    program = Path(sys.argv[1]).resolve() if len(sys.argv) > 1 else PROGRAM
    if not program.is_file():
        print(f"no program at {program}")
        return 1
    short = input_of(program, read_row(HERE / "rows" / "one_message.txt"))
    long = long_script(program)
    outputs: list[Callable[[Path, list[str], bytes], int]] = [closed, full, unread]
    inputs = (([], b""), (["play"], short), (["play"], long), (["migrate"], long))
    calls = [(output, *call) for output in outputs for call in inputs]
    # A pipe holds the short texts whole, so that they are written before the reader leaves.
    calls += [(left, ["play"], long), (left, ["migrate"], long)]
    failed = 0
    for output, words, given in calls:
        status = output(program, words, given)
        if status != WRITE_FAULT:
            failed += 1
            print(f"{output.__name__}, words {words}, {len(given)} bytes: status {status}")
    print(f"{len(calls) - failed} passed, {failed} failed")
    return 1 if failed else 0


if __name__ == "__main__":
    sys.exit(main())
