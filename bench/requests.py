#!/usr/bin/env python3
"""Times the reading of request lines, beside Python's json on the same lines.

    requests.py [PROGRAM [LINES]]

PROGRAM is the built bt_asks, which reads the envelope and the request of each line and prints one
word for it. Both run five times in turn, on MutateRow lines of about 250 bytes, and the best time
of each counts, less the time that each takes for no line.
"""
import os
import subprocess
import sys
import tempfile
import time

HERE = os.path.dirname(os.path.abspath(__file__))
PROGRAM = os.path.join(HERE, "..", "crates", "bt_asks", "out", "bt_asks")
PEER = "Python's json"
PYTHON = "import json, sys\nfor line in sys.stdin.buffer:\n    json.loads(line)\n    print('ok')\n"


def seconds(command, path):
    began = time.perf_counter()
    with open(path, "rb") as given, open(os.devnull, "wb") as out:
        subprocess.run(command, stdin=given, stdout=out, check=True)
    return time.perf_counter() - began


def main():
    program = os.path.abspath(sys.argv[1]) if len(sys.argv) > 1 else PROGRAM
    count = sys.argv[2] if len(sys.argv) > 2 else "100000"
    commands = {"requests read": [program], PEER: [sys.executable, "-c", PYTHON]}
    best = {}
    with tempfile.TemporaryDirectory() as folder:
        path, empty = os.path.join(folder, "lines"), os.path.join(folder, "empty")
        with open(path, "wb") as out:
            subprocess.run([sys.executable, os.path.join(HERE, "lines.py"), count, "1000"], stdout=out, check=True)
        open(empty, "wb").close()
        size = os.path.getsize(path) / 1e6
        for _ in range(5):
            for name, command in commands.items():
                time_of_lines = seconds(command, path) - seconds(command, empty)
                best[name] = min(best.get(name, 1e9), time_of_lines)
    for name in commands:
        print(f"{name:16} {size / best[name]:8.1f} MB a second")
    print(f"{'ratio':16} {best['requests read'] / best[PEER]:8.2f}")


main()
