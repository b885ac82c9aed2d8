#!/usr/bin/env python3
"""Gives the program the inputs of the folder rows/ in pieces: what it answers must not depend on how they are cut.

usage: pieces.py [PROGRAM]    (if left out, crates/bus1sh/out/bus1sh, which `rt run` builds)

Each row whose input isn't empty is tried with pieces of 1, 7 and 4,096 bytes. The standard input is a socket that keeps its
packets apart, so that each read of the program takes one piece and no more. The status and the output must be the row's.

It prints a line for each call that fails, and last how many passed and failed. Its status is 1 if one failed, else 0.
"""

import socket
import subprocess
import sys
from pathlib import Path

sys.dont_write_bytecode = True  # so that no folder of compiled files stands beside rows.py

from rows import HERE, PROGRAM, SECONDS, input_of, read_row

SIZES = (1, 7, 4096)


def run_in_pieces(program: Path, words: list[str], given: bytes, size: int) -> tuple[int, bytes]:
    """The status and the output of the program, which reads pieces of this size."""
    writer, reader = socket.socketpair(socket.AF_UNIX, socket.SOCK_SEQPACKET)
    with writer, reader:
        child = subprocess.Popen([program, *words], stdin=reader, stdout=subprocess.PIPE)
        reader.close()
        try:
            for place in range(0, len(given), size):
                writer.send(given[place : place + size])
        except BrokenPipeError:
            pass
        writer.close()
        output, _ = child.communicate(timeout=SECONDS)
    return child.returncode, output


def main() -> int:
    program = Path(sys.argv[1]).resolve() if len(sys.argv) > 1 else PROGRAM
    if not program.is_file():
        print(f"no program at {program}")
        return 1
    passed = failed = 0
    for path in sorted((HERE / "rows").glob("*.txt")):
        row = read_row(path)
        given = input_of(program, row)
        for size in SIZES if given else ():
            answer = run_in_pieces(program, row.words, given, size)
            if answer == (row.status, row.output):
                passed += 1
            else:
                failed += 1
                print(f"{path.stem} in pieces of {size}: status {answer[0]}, output {answer[1][:200]!r}")
    print(f"{passed} passed, {failed} failed")
    return 1 if failed or not passed else 0


if __name__ == "__main__":
    sys.exit(main())
