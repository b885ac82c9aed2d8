#!/usr/bin/env python3
"""Runs the program on threads, again and again, outside the gate.

usage: soak.py [PROGRAM] [TIMES]    (if left out, crates/bus1sh/out/bus1sh, which `rt run` builds, and 1,000 times)

So many times each: `soak 7` prints its summary, to the byte; and each script of the folder rows/ that `play` plays to its
end, its turns left out, is run by `run`, whose report `check` then calls legal. A script that waits for a message which
only its turns would have sent may stall.

It prints a line for each run that fails, and last how many passed and failed. Its status is 1 if one failed, else 0.
"""

import sys
from pathlib import Path

from rows import HERE, PROGRAM, input_of, read_row, run

SUMMARY = b"soak 7 peers 6 sends 1536 entries 5120 receipts 5120 bytes 184320\n"


def scripts(program: Path) -> dict[str, bytes]:
    """The scripts of the rows that are played to their end, by the rows' names."""
    found = {}
    for path in sorted((HERE / "rows").glob("*.txt")):
        row = read_row(path)
        if row.words == ["play"] and row.status == 0:
            found[path.stem] = input_of(program, row)
    return found


def fault(program: Path, script: bytes) -> str:
    """What is wrong with one run of a script; nothing where it is well."""
    status, report = run(program, ["run"], script)
    if status == 3 and report.startswith(b"stalled "):
        return ""
    if status != 0:
        return f"status {status}"
    status, verdict = run(program, ["check"], script + report)
    if (status, verdict) != (0, b"legal\n"):
        return f"check says {verdict!r} of {report!r}"
    return ""


def main() -> int:
    program = Path(sys.argv[1]).resolve() if len(sys.argv) > 1 else PROGRAM
    times = int(sys.argv[2]) if len(sys.argv) > 2 else 1000
    all_scripts = scripts(program)
    passed = failed = 0
    for _ in range(times):
        faults = {"soak 7": "" if run(program, ["soak", "7"], b"") == (0, SUMMARY) else "another summary"}
        faults |= {name: fault(program, script) for name, script in all_scripts.items()}
        for name, why in faults.items():
            passed += not why
            failed += bool(why)
            if why:
                print(f"{name}: {why}")
    print(f"{passed} passed, {failed} failed")
    return 1 if failed else 0


if __name__ == "__main__":
    sys.exit(main())
