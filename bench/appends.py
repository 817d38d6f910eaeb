#!/usr/bin/env python3
"""Times appends to a log segment in a folder, beside the four bare calls that each costs.

usage: appends.py PROGRAM DIR [COUNT [LENGTH]]

PROGRAM is the built bt_appends. DIR is a folder on the device to measure; two folders are made in
it. The floor is four_calls.c, compiled with cc. Both run in turn, five times, and the best time of
each counts.
"""
import os
import subprocess
import sys
import tempfile
import time

HERE = os.path.dirname(os.path.abspath(__file__))


def compiled(folder):
    program = os.path.join(folder, "four_calls")
    source = os.path.join(HERE, "four_calls.c")
    for compiler in ("cc", "gcc", "clang"):
        try:
            subprocess.run([compiler, "-O2", "-o", program, source], check=True)
            return program
        except FileNotFoundError:
            continue
    sys.exit("no C compiler found")


def seconds(program, folder, count, length):
    begun = time.perf_counter()
    subprocess.run([program, folder, str(count), str(length)], check=True, stdout=subprocess.DEVNULL)
    return time.perf_counter() - begun


def main():
    program = os.path.abspath(sys.argv[1])
    where = os.path.abspath(sys.argv[2])
    count = int(sys.argv[3]) if len(sys.argv) > 3 else 2000
    length = int(sys.argv[4]) if len(sys.argv) > 4 else 100
    with tempfile.TemporaryDirectory(dir=where) as folder:
        floor_program = compiled(folder)
        runs = [(program, "log"), (floor_program, "floor")]
        best = {}
        for _ in range(5):
            for name, place in runs:
                # what each costs to start is taken off
                start = seconds(name, os.path.join(folder, place), 0, length)
                whole = seconds(name, os.path.join(folder, place), count, length)
                best[place] = min(best.get(place, 1e9), whole - start)
    for place, name in (("log", "appends"), ("floor", "four bare calls")):
        print(f"{name:16} {count / best[place]:10.0f} a second")
    print(f"ratio            {best['log'] / best['floor']:10.2f}")


main()
