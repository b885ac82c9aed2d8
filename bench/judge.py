#!/usr/bin/env python3
"""Times `bus1sh check` on legal reports of 1,000 to 16,000 calls, and prints how the time grows.

Usage: bench/judge.py PROGRAM, with the path of a built bus1sh (`crates/bus1sh/out/bus1sh`). It is no part of the gate.
Where the number of calls doubles, a quadratic judge takes four times as long at most.
"""
import struct
import subprocess
import sys
import time


def script(messages):
    """Peer 0 sends so many messages of one byte to peer 1, which receives them."""
    send = struct.pack("<8I", 7, 0, 1, 0, 1, 0, 2, 0) + b"a" + bytes(7)
    recv = struct.pack("<2I", 8, 0)
    peer = struct.pack("<5I", 4096, 16, 4096, 16, 0)
    body = struct.pack("<I", 0) + peer + struct.pack("<I", 1) + peer
    body += struct.pack("<2IQ", 1, 0, 4)
    body += struct.pack("<2I", messages, 0) + send * messages
    body += struct.pack("<2I", messages, 0) + recv * messages
    head = b"BUS1SCR1" + struct.pack("<2IQ4I", 1, 2, 0, 1, 0, 40 + len(body), 0)
    return head + body


def report(messages):
    """What a bus answers to that script, where no limit refuses a message."""
    stamps = range(2, 2 * messages + 2, 2)
    lines = ["bus1 report 1", "peers 2", f"peer 0 epoch 0 clock {2 * messages}"]
    lines += [f"send 0 to 2 with - data 61 = sent {stamp} ok" for stamp in stamps]
    lines += [f"peer 1 epoch 0 clock {2 * messages}"]
    lines += [f"recv = data {stamp}.0.0 node 4 slice 0 handles - bytes 61" for stamp in stamps]
    return "\n".join(lines + ["end", ""]).encode()


def main():
    program = sys.argv[1]
    before = None
    for calls in (1000, 2000, 4000, 8000, 16000):
        data = script(calls // 2) + report(calls // 2)
        start = time.perf_counter()
        done = subprocess.run([program, "check"], input=data, stdout=subprocess.PIPE, check=False)
        took = time.perf_counter() - start
        ratio = "" if before is None else f", {took / before:.2f} times the one before"
        print(f"{calls} calls: {took:.3f} s, {done.stdout.decode().strip()}{ratio}")
        before = took


if __name__ == "__main__":
    main()
