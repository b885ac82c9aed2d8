#!/usr/bin/env python3
"""Runs the program on each row of the folder rows/, and compares its status and output with the row's.

usage: rows.py [PROGRAM]    (if left out, crates/bus1sh/out/bus1sh, which `rt run` builds)

A row is a file in this form:

    words: WORD..           the program's words
    status: NUMBER          the status that is wanted
    input: KIND             none, these bytes, this text, the script of this text
    LINE..                  the input's lines; there are none after `none`
    output:
    LINE..                  the whole output that is wanted

Bytes are pairs of hexadecimal digits; where the output is a script (`asm` and `migrate`), it is given as bytes too. `The
script of this text` is what the program makes of the text with the word `asm`.

It prints a line for each row that fails, and last how many passed and failed. Its status is 1 if a row failed, else 0.
"""

import subprocess
import sys
from pathlib import Path
from typing import NamedTuple

HERE = Path(__file__).resolve().parent
PROGRAM = HERE.parent / "crates" / "bus1sh" / "out" / "bus1sh"
SECONDS = 60


class Row(NamedTuple):
    words: list[str]
    status: int
    kind: str
    given: str
    output: bytes


def value(line: str, name: str) -> str:
    """What stands behind the name at a line's begin."""
    head, colon, rest = line.partition(":")
    if head != name or not colon:
        raise ValueError(f"expected '{name}:', found {line!r}")
    return rest.strip()


def read_row(path: Path) -> Row:
    words, status, kind, rest = path.read_text(encoding="ascii").split("\n", 3)
    given, mark, output = ("\n" + rest).partition("\noutput:\n")
    if not mark:
        raise ValueError("there is no line 'output:'")
    words = value(words, "words").split()
    status = int(value(status, "status"))
    is_script = words in (["asm"], ["migrate"]) and status == 0
    wanted = bytes.fromhex(output) if is_script else output.encode("ascii")
    # The line feed before the mark ends the input's last line.
    return Row(words, status, value(kind, "input"), (given + "\n")[1:], wanted)


def run(program: Path, words: list[str], given: bytes) -> tuple[int, bytes]:
    """The status and the standard output of the program."""
    done = subprocess.run([program, *words], input=given, stdout=subprocess.PIPE, timeout=SECONDS)
    return done.returncode, done.stdout


def input_of(program: Path, row: Row) -> bytes:
    if row.kind == "none":
        return b""
    if row.kind == "these bytes":
        return bytes.fromhex(row.given)
    text = row.given.encode("ascii")
    if row.kind == "this text":
        return text
    if row.kind == "the script of this text":
        status, script = run(program, ["asm"], text)
        if status != 0:
            raise ValueError(f"asm ended with status {status} and {script!r}")
        return script
    raise ValueError(f"unknown kind of input {row.kind!r}")


def fault_of(program: Path, path: Path) -> str | None:
    """How the program's answer differs from the row's, if it does."""
    try:
        row = read_row(path)
        status, output = run(program, row.words, input_of(program, row))
    except (ValueError, subprocess.TimeoutExpired) as error:
        return str(error)
    if status != row.status:
        return f"status {status}, not {row.status}; output {output[:200]!r}"
    pairs = zip(output.splitlines(True) + [b""], row.output.splitlines(True) + [b""])
    for number, (found, wanted) in enumerate(pairs, 1):
        if found != wanted:
            return f"line {number} of the output is {found[:200]!r}, not {wanted[:200]!r}"
    return None


def main() -> int:
    program = Path(sys.argv[1]).resolve() if len(sys.argv) > 1 else PROGRAM
    if not program.is_file():
        print(f"no program at {program}")
        return 1
    paths = sorted((HERE / "rows").glob("*.txt"))
    failed = 0
    for path in paths:
        fault = fault_of(program, path)
        if fault is not None:
            failed += 1
            print(f"{path.stem}: {fault}")
    print(f"{len(paths) - failed} passed, {failed} failed")
    return 1 if failed or not paths else 0


if __name__ == "__main__":
    sys.exit(main())
