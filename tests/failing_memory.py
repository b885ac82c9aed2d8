#!/usr/bin/env python3
"""Calls each word on a row of the folder rows/ once for each allocation of the program, and makes that allocation fail.

usage: failing_memory.py [PROGRAM [ROW..]]    (if left out, crates/bus1sh/out/bus1sh and client_server_logger)

The row's input must be the text of a script that `play` plays to its end. `play`, `run`, `dump` and `migrate` are given
its script, `asm` its text, and `check` its script with the row's report. Each call must end with status 6 and nothing
written, or with status 0: with `asm`, `dump`, `migrate` and `check` it then writes what it writes where no allocation
fails, and with `play` and `run` a report that `check` calls legal. Allocations fail in failing_memory.c, which is built
with $CC or gcc and preloaded. It works for a program that takes malloc and its kin from the C library, as the program of
`rt run` does; that of `rt try` brings its own.

It prints a line for each call that goes wrong, and last how many passed and failed. Its status is 1 if one failed, else 0.
"""

import os
import subprocess
import sys
import tempfile
from pathlib import Path

sys.dont_write_bytecode = True  # so that no folder of compiled files stands beside rows.py

from rows import HERE, PROGRAM, SECONDS, Row, input_of, read_row, run

DONE = 0
NO_MEMORY = 6


def build(folder: Path) -> Path:
    """The library that makes allocations fail."""
    library = folder / "failing_memory.so"
    compiler = os.environ.get("CC", "gcc")
    flags = ["-std=gnu11", "-O2", "-Wall", "-Wextra", "-fno-builtin", "-fPIC", "-shared"]
    subprocess.run([compiler, *flags, HERE / "failing_memory.c", "-o", library], check=True)
    return library


def call(program: Path, library: Path, word: str, given: bytes, number: int) -> tuple[int, bytes, int]:
    """The status and the output of a call whose allocation of this number fails, and how many it made."""
    counted = library.parent / "count"
    counted.unlink(missing_ok=True)
    places = {"LD_PRELOAD": str(library), "FAIL_ALLOCATION": str(number), "COUNT_ALLOCATIONS": str(counted)}
    done = subprocess.run(
        [program, word],
        input=given,
        stdout=subprocess.PIPE,
        timeout=SECONDS,
        env={**os.environ, **places},
    )
    # A call that was killed wrote no count.
    count = int(counted.read_text()) if counted.is_file() else 0
    return done.returncode, done.stdout, count


def inputs(program: Path, row: Row) -> dict[str, bytes]:
    """What each word is given."""
    script = input_of(program, row)
    return {
        "play": script,
        "run": script,
        "asm": row.given.encode("ascii"),
        "dump": script,
        "migrate": script,
        "check": script + row.output,
    }


def fault_of(program: Path, word: str, given: bytes, whole: bytes, status: int, output: bytes) -> str | None:
    """What is wrong with the end of a call that writes `whole` where nothing fails, if anything is."""
    if status == NO_MEMORY:
        return f"status 6, but {output[:200]!r} was written" if output else None
    if status != DONE:
        return f"status {status}; output {output[:200]!r}"
    if word not in ("play", "run"):
        return None if output == whole else f"output {output[:200]!r}"
    verdict = run(program, ["check"], given + output)
    return None if verdict == (0, b"legal\n") else f"the report is judged {verdict}"


def call_each(program: Path, library: Path, name: str, word: str, given: bytes) -> tuple[int, int]:
    """How many calls of a word passed and failed."""
    status, whole, count = call(program, library, word, given, 0)
    if status != DONE or count == 0:
        print(f"{name}, {word}: with no failure, status {status} and {count} allocations; output {whole[:200]!r}")
        return 0, 1
    failed = 0
    statuses = []
    for number in range(1, count + 1):
        status, output, _ = call(program, library, word, given, number)
        statuses.append(status)
        fault = fault_of(program, word, given, whole, status, output)
        if fault is not None:
            failed += 1
            print(f"{name}, {word}: allocation {number} of {count}: {fault}")
    ends = f"{statuses.count(NO_MEMORY)} calls ended with status 6, {statuses.count(DONE)} with 0"
    print(f"{name}, {word}: {count} allocations; {ends}")
    return count - failed, failed


def main() -> int:
    program = Path(sys.argv[1]).resolve() if len(sys.argv) > 1 else PROGRAM
    if not program.is_file():
        print(f"no program at {program}")
        return 1
    passed = failed = 0
    with tempfile.TemporaryDirectory() as folder:
        library = build(Path(folder))
        for name in sys.argv[2:] or ["client_server_logger"]:
            row = read_row(HERE / "rows" / f"{name}.txt")
            for word, given in inputs(program, row).items():
                good, bad = call_each(program, library, name, word, given)
                passed, failed = passed + good, failed + bad
    print(f"{passed} passed, {failed} failed")
    return 1 if failed else 0


if __name__ == "__main__":
    sys.exit(main())
