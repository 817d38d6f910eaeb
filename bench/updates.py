#!/usr/bin/env python3
"""Times increments of one counter beside sets of one cell, and many rules on one row.

    updates.py PROGRAM DIR [COUNT]

PROGRAM is the built bt_prog, DIR a folder on the device to measure. COUNT lines (20,000, unless told)
add 1 to one counter, and as many set one cell; both run in turn, three times, and the best time of each
counts. Then, in a folder in memory, lines of 1,000 to 100,000 rules on one row: each rule on a
column of its own, and all of them appending to one column.
"""
import base64
import json
import os
import subprocess
import sys
import tempfile
import time

TABLE = "projects/fill/instances/fill/tables/fill"
MEMORY = "/dev/shm"


def encoded(text):
    return base64.b64encode(text.encode()).decode()


def line(method, request):
    return json.dumps({"method": method, "request": {"tableName": TABLE, "rowKey": encoded("r"), **request}}, separators=(",", ":")) + "\n"


CREATE = json.dumps({"method": "CreateTable", "request": {
    "parent": "projects/fill/instances/fill", "tableId": "fill", "table": {"columnFamilies": {"b": {}}}}}) + "\n"
ADD = line("ReadModifyWriteRow", {"rules": [{"familyName": "b", "columnQualifier": encoded("n"), "incrementAmount": "1"}]})
SET = line("MutateRow", {"mutations": [{"setCell": {"familyName": "b", "columnQualifier": encoded("n"), "timestampMicros": "-1", "value": "AAAAAAAAAAE="}}]})


def taken(program, where, given):
    """The time of a run over a folder of its own, all of whose lines are answered OK."""
    with tempfile.TemporaryDirectory(dir=where) as folder, tempfile.TemporaryFile() as lines:
        lines.write(given.encode())
        lines.seek(0)
        began = time.perf_counter()
        printed = subprocess.run([program, "run", folder], stdin=lines, stdout=subprocess.PIPE, check=True).stdout
        took = time.perf_counter() - began
    assert printed.count(b'{"status":{}}\n') == given.count("\n"), printed[-400:]
    return took


def counters(program, where, count):
    best = {}
    for _ in range(3):
        for name, one in (("increments", ADD), ("sets of one cell", SET)):
            best[name] = min(best.get(name, 1e9), taken(program, where, CREATE + one * count))
    for name, took in best.items():
        print(f"{name}: {count / took:.0f} a second")
    print(f"ratio {best['sets of one cell'] / best['increments']:.2f}")


def rules(program, count, column):
    """Microseconds a rule of a line of so many, each on the column that its number gives."""
    asked = [{"familyName": "b", "columnQualifier": encoded(column(number)), "appendValue": "YQ=="} for number in range(count)]
    one = line("ReadModifyWriteRow", {"rules": asked})
    took = min(taken(program, MEMORY, CREATE + one) for _ in range(3)) - min(taken(program, MEMORY, CREATE) for _ in range(3))
    return took / count * 1e6


def main():
    program, where = (os.path.abspath(path) for path in sys.argv[1:3])
    counters(program, where, int(sys.argv[3]) if len(sys.argv) > 3 else 20000)
    for count in (1000, 10000, 100000):
        own, shared = rules(program, count, "q{:06}".format), rules(program, count, lambda number: "q")
        print(f"{count} rules: {own:.1f} us a rule, each on its own column; {shared:.1f} us, all on one")


main()
