#!/usr/bin/env python3
"""Times `bus1sh` on accepted inputs that cost it most, and prints how time and memory grow.

Usage: bench/hostile.py PROGRAM [--seconds S] [NAME ...], with the path of a built bus1sh (`crates/bus1sh/out/bus1sh`). It
is no part of the gate. For each input the size is doubled until a run takes S seconds (2 unless told) or the input is full;
the exponent is that by which time grows over the last doubling, and memory is the peak beside the input's bytes.
"""
import argparse
import math
import os
import struct
import sys
import tempfile
import time

MOST_SCRIPT = 16_777_216
MOST_REPORT = 268_435_456
BIG = 0xFFFF_FFFF
DISCONNECT = struct.pack("<2I", 1, 0)
RECV = struct.pack("<2I", 8, 0)
RESET = struct.pack("<6I", 3, 0, BIG, BIG, BIG, 0)


def peer(user=0, pool=4_194_304):
    return struct.pack("<6I", user, pool, BIG, BIG, BIG, 0)


def wire(giver, number, holder):
    return struct.pack("<2IQ", giver, holder, number)


def send(to, carried=()):
    counts = struct.pack("<4I", len(to), len(carried), 0, 0)
    return struct.pack("<2I", 7, 0) + counts + struct.pack(f"<{len(to) + len(carried)}Q", *to, *carried)


def script(peers, wires, lists):
    """The bytes of a script without turns; of each peer, how many commands and their bytes."""
    body = [*peers, *wires]
    for count, records in lists:
        body += [struct.pack("<2I", count, 0), records]
    body = b"".join(body)
    return b"BUS1SCR1" + struct.pack("<2IQ4I", 1, len(peers), 0, len(wires), 0, 40 + len(body), 0) + body


def report(peers):
    """The bytes of a report; of each peer, its epoch, its clock and the lines of its calls."""
    lines = [f"bus1 report 1\npeers {len(peers)}\n"]
    for number, (epoch, clock, calls) in enumerate(peers):
        lines += [f"peer {number} epoch {epoch} clock {clock}\n", *calls]
    return "".join(lines + ["end\n"]).encode()


def wires_between(count, given):
    own = count - count // 2 if given else count
    return [(0, 4 * i, 1) for i in range(own)] + [(1, 2 + 4 * i, 2) for i in range(count - own)]


def wires(count, given=False, reset=None, peers=64):
    lists = [(0, b"")] * peers
    if reset is not None:
        lists[reset] = (1, RESET)
    return script([peer(p, 8) for p in range(peers)], [wire(*w) for w in wires_between(count, given)], lists)


def wires_text(count, peers=64):
    lines = ["bus1 script 1", "clock 0"] + [f"peer {p} 8 {BIG} {BIG} {BIG}" for p in range(peers)]
    lines += [f"wire {g} {k} {h}" for g, k, h in wires_between(count, False)]
    lines += [f"commands {p}" for p in range(peers)]
    return ("\n".join(lines) + "\nturns -\n").encode()


def wires_checked(count):
    return wires(count) + report([(0, 0, [])] * 64)


def stamps(count):
    calls = [f"disconnect = left {2 * k + 2}\n" for k in range(count)]
    return script([peer()], [], [(count, DISCONNECT * count)]) + report([(count, 2 * count, calls)])


def references(count, checked):
    """Half of the bytes are RECVs that find nothing, the other half references to a receipt that isn't there."""
    one = send([128 * 2**40 + 1] * 1024, [128 * 2**40 + 1] * 1024)
    sends = max(1, count * len(RECV) // len(one))
    data = script([peer()], [], [(count + sends, RECV * count + one * sends)])
    if not checked:
        return data
    invalid = ",".join(["invalid"] * 1024)
    calls = ["recv = refused EAGAIN:absent\n"] * count
    calls += [f"send 0 to {invalid} with {invalid} data - = refused EINVAL\n"] * sends
    return data + report([(0, 0, calls)])


def nodes(count, checked):
    """SENDs that make 64 nodes each, and are refused at their destination."""
    carried = [[4 * (64 * k + i) for i in range(64)] for k in range(count)]
    commands = b"".join(send([2], numbers) for numbers in carried)
    data = script([peer(0), peer(1, 8)], [wire(1, 4, 0)], [(count, commands), (0, b"")])
    if not checked:
        return data
    calls = [f"send 0 to 2 with {','.join(map(str, n))} data - = refused EXFULL:512:8 at 0\n" for n in carried]
    return data + report([(0, 0, calls), (0, 0, [])])


def sent_and_received(count):
    sent = [f"send 0 to 2 with - data - = sent {2 * k + 2} ok\n" for k in range(count)]
    key = [f"data {2 * k + 2}.0.0 node 4 slice {8 * k}" for k in range(count)]
    return report([(0, 2 * count, sent), (0, 2 * count, [f"recv = {k} handles - bytes -\n" for k in key])])


def messages(count, checked):
    data = script([peer(0), peer(1)], [wire(1, 4, 0)], [(count, send([2]) * count), (count, RECV * count)])
    return data + sent_and_received(count) if checked else data


def holes(count):
    """Peer 1 gives every second of its slices back before as many messages come again as before."""
    sends = send([2]) * count
    await_one = struct.pack("<2I", 9, 0)
    given_back = b"".join(struct.pack("<2IQ", 6, 0, 16 * k) for k in range(count // 2))
    first = (2 * count + 1, sends + await_one + sends)
    second = (count + count // 2 + 1, RECV * count + given_back + send([2]))
    return script([peer(0), peer(1)], [wire(1, 4, 0), wire(0, 4, 1)], [first, second])


def resets(count):
    """In each epoch a node is made by a SEND that is refused at its destination, and destroyed, and its notice received."""
    commands, calls = [], []
    for k in range(1, count + 1):
        commands += [send([2], [4 * k]), struct.pack("<4IQ", 5, 0, 1, 0, 4 * k), RECV, RESET]
        calls += [f"send 0 to 2 with {4 * k} data - = refused EXFULL:512:8 at 0\n", f"destroy {4 * k} = destroyed {2 * k}\n"]
        calls += [f"recv = destroyed {2 * k}.0.0 node {4 * k}\n", f"reset {BIG} {BIG} {BIG} = reset -\n"]
    data = script([peer(0), peer(1, 8)], [wire(1, 4, 0)], [(4 * count, b"".join(commands)), (0, b"")])
    return data + report([(count, 2 * count, calls), (0, 0, [])])


def places(count):
    """SENDs of 64 places each, 16 at each of four peers, none of which receives before the drain."""
    one = send([2, 6, 10, 14] * 16)
    lists = [(count, one * count)] + [(0, b"")] * 4
    return script([peer(p) for p in range(5)], [wire(p, 4, 0) for p in range(1, 5)], lists)


def table(count):
    """Peer 1 holds 100 handles for every 37 messages that it receives; none carries a handle."""
    held = [wire(1, 4, 0)] + [wire(0, 4 * i + 4, 1) for i in range(count)]
    sends = max(1, count * 37 // 100)
    return script([peer(0), peer(1)], held, [(sends, send([2]) * sends), (0, b"")]) + sent_and_received(sends)


def short_lines(count):
    return script([peer()], [], [(0, b"")]) + report([(0, 0, ["recv = ok\n"] * count)])


def accepted_places(count):
    line = "send 0 to - with - data - = sent 0 ok" + ",ok" * count + "\n"
    return script([peer()], [], [(0, b"")]) + report([(0, 0, [line])])


SCRIPT_WIRES = (MOST_SCRIPT - 40 - 64 * 32 - 24) // 16
MESSAGES = min((MOST_SCRIPT - 200) // 48, 4_194_304 // 8)
INPUTS = {
    "wires, check": ("check", wires_checked, SCRIPT_WIRES),
    "wires, dump": ("dump", wires, SCRIPT_WIRES),
    "wires, asm": ("asm", wires_text, SCRIPT_WIRES),
    "given wires, dump": ("dump", lambda n: wires(n, given=True), SCRIPT_WIRES),
    "wires, play": ("play", wires, SCRIPT_WIRES),
    "owner resets, play": ("play", lambda n: wires(n, reset=0), SCRIPT_WIRES),
    "holder resets, play": ("play", lambda n: wires(n, reset=1), SCRIPT_WIRES),
    "stamps, check": ("check", stamps, (MOST_SCRIPT - 72) // 8),
    "references, play": ("play", lambda n: references(n, False), MOST_SCRIPT // 17),
    "references, check": ("check", lambda n: references(n, True), MOST_SCRIPT // 17),
    "nodes, play": ("play", lambda n: nodes(n, False), (MOST_SCRIPT - 200) // 544),
    "nodes, check": ("check", lambda n: nodes(n, True), (MOST_SCRIPT - 200) // 544),
    "messages, play": ("play", lambda n: messages(n, False), MESSAGES),
    "messages, check": ("check", lambda n: messages(n, True), MESSAGES),
    "holes, play": ("play", holes, (MOST_SCRIPT - 300) // 88),
    "resets, check": ("check", resets, (MOST_SCRIPT - 200) // 96),
    "places, play": ("play", places, (MOST_SCRIPT - 300) // 536),
    "table, check": ("check", table, 500_000),
    "short lines, check": ("check", short_lines, (MOST_REPORT - 400) // 10),
    "accepted places, check": ("check", accepted_places, (MOST_REPORT - 400) // 3),
}


def run(program, word, data):
    """Seconds, the peak of memory in bytes, and the status of one call."""
    with tempfile.TemporaryFile() as held:
        held.write(data)
        held.seek(0)
        start = time.perf_counter()
        child = os.fork()
        if child == 0:
            os.dup2(held.fileno(), 0)
            os.dup2(os.open(os.devnull, os.O_WRONLY), 1)
            os.execv(program, [program, word])
        _, status, used = os.wait4(child, 0)
        return time.perf_counter() - start, used.ru_maxrss * 1024, os.waitstatus_to_exitcode(status)


def measure(program, name, seconds):
    word, make, most = INPUTS[name]
    count, before, exponent = min(most, 256), None, None
    while True:
        data = make(count)
        took, peak, status = run(program, word, data)
        if before is not None and before > 0:
            exponent = math.log2(took / before)
        if took >= seconds or count * 2 > most:
            break
        count, before = count * 2, took
    grows = "-" if exponent is None else f"{exponent:.2f}"
    print(f"{name:24} {len(data):>11} bytes {took:8.2f} s  exponent {grows:>5}  {peak / len(data):6.0f} bytes a byte"
          f"  full in {took * (most / count) ** max(exponent or 1, 1):8.0f} s  status {status}", flush=True)


def main():
    args = argparse.ArgumentParser(description=__doc__, formatter_class=argparse.RawDescriptionHelpFormatter)
    args.add_argument("program")
    args.add_argument("names", nargs="*", metavar="NAME", help=", ".join(INPUTS))
    args.add_argument("--seconds", type=float, default=2.0)
    args = args.parse_args()
    for name in args.names or INPUTS:
        if name not in INPUTS:
            sys.exit(f"no such input: {name}")
        measure(os.path.abspath(args.program), name, args.seconds)


main()
