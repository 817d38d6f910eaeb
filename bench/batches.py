#!/usr/bin/env python3
"""Times batches, wide rows and deletions.

    batches.py PROGRAM READER DIR [ROWS]

PROGRAM is the built bt_prog, READER the built bt_texts, DIR a folder on the device to measure. ROWS
rows of four cells (100,000, unless told) are loaded by MutateRows of 100 entries, each of which is one
record of the log: into a folder in memory, where syncs cost nothing, and into one in DIR; beside
them the time that READER takes to read the same lines by serde_json alone, and the four bare calls
of such records, one after another and with as much work between them as a load in memory is. Best
of five, in turn. Then, in a folder in memory: lines that set and delete one cell of a row of 1,000
to 100,000 cells, and lines that drop the ten rows of a prefix, one prefix after another, from tables
of 1,000 to 100,000 rows. Best of three.
"""
import base64
import json
import os
import subprocess
import sys
import tempfile
import time

from storage import compiled

TABLE = "projects/fill/instances/fill/tables/fill"
MEMORY = "/dev/shm"


def encoded(text):
    return base64.b64encode(text.encode()).decode()


def line(method, request):
    return json.dumps({"method": method, "request": request}, separators=(",", ":")) + "\n"


CREATE = line("CreateTable", {
    "parent": "projects/fill/instances/fill", "tableId": "fill",
    "table": {"columnFamilies": {"a": {"gcRule": {"maxNumVersions": 2}}, "b": {}}}})


def cell(family, qualifier, at, value):
    return {"setCell": {"familyName": family, "columnQualifier": encoded(qualifier), "timestampMicros": str(at), "value": encoded(value)}}


def batches(rows):
    """MutateRows lines of 100 rows of four cells; values are those of a linear congruence from seed 1."""
    x, entries = 1, []
    for row in range(rows):
        x = (x * 6364136223846793005 + 1442695040888963407) % 2**64
        value = str(x >> 32)
        cells = [cell("a", "q", at, value) for at in (1000, 2000, 3000)] + [cell("b", "n", 1000, value)]
        entries.append({"rowKey": encoded(f"row{row:08}"), "mutations": cells})
        if len(entries) == 100 or row + 1 == rows:
            yield line("MutateRows", {"tableName": TABLE, "entries": entries})
            entries = []


def taken(command, given):
    """The time of a run and what it printed; its input is a file."""
    with tempfile.TemporaryFile() as lines:
        lines.write(given)
        lines.seek(0)
        began = time.perf_counter()
        done = subprocess.run(command, stdin=lines, stdout=subprocess.PIPE, check=True)
        return time.perf_counter() - began, done.stdout


def once(program, where, given):
    """The time of a run over a folder of its own, all of whose lines are answered OK."""
    with tempfile.TemporaryDirectory(dir=where) as folder:
        took, printed = taken([program, "run", folder], given.encode())
        assert printed.count(b'{"status":{}}\n') == given.count("\n"), printed[-400:]
        return took


def run(program, where, given):
    """The least time of three runs."""
    return min(once(program, where, given) for _ in range(3))


def loads(program, reader, where, rows):
    lines = "".join(batches(rows))
    alone = "".join("serde_json " + line for line in lines.splitlines(keepends=True)).encode()
    read = memory = disk = 1e9
    for _ in range(5):
        read = min(read, taken([reader], alone)[0])
        memory = min(memory, once(program, MEMORY, CREATE + lines))
        disk = min(disk, once(program, where, CREATE + lines))
    print(f"{rows} rows by batches of 100, {len(lines) / 1e6:.1f} MB of lines, read as JSON alone: {read:.2f} s")
    print(f"load, in memory: {rows / memory:.0f} rows a second, {memory / read:.2f} times as long")
    print(f"load, on the disk: {rows / disk:.0f} rows a second, {disk / read:.2f} times as long")
    return lines, memory, disk


def logged(program, given):
    """The bytes of the folder that these lines make."""
    with tempfile.TemporaryDirectory(dir=MEMORY) as folder:
        taken([program, "run", folder], given.encode())
        return sum(os.path.getsize(os.path.join(folder, name)) for name in os.listdir(folder))


def bare_calls(where, records, length, work):
    """Microseconds of the four bare calls of a record, with so many of work before each. Best of five."""
    with tempfile.TemporaryDirectory(dir=where) as folder:
        floor = compiled(folder)
        given = [floor, os.path.join(folder, "calls"), str(records), str(length), str(work)]
        return min(int(subprocess.run(given, stdout=subprocess.PIPE, check=True).stdout) for _ in range(5))


def disk_share(program, where, lines, memory, disk):
    records = lines.count("\n")
    length, work = logged(program, CREATE + lines) // records, int(memory / records * 1e6)
    print(f"of a batch, the disk takes {(disk - memory) / records * 1e6:.0f} us")
    print(f"four bare calls on {length} bytes: {bare_calls(where, records, length, 0)} us")
    print(f"the same with {work} us of work between: {bare_calls(where, records, length, work)} us")


def wide(program, cells):
    """Microseconds a line that sets or deletes one cell of a row of so many."""
    times = [at * 1000 for at in range(cells)]
    fill = "".join(
        line("MutateRow", {"tableName": TABLE, "rowKey": encoded("r"), "mutations": [cell("b", "n", at, "v") for at in times[part:part + 10000]]})
        for part in range(0, cells, 10000))
    changes = ""
    for number in range(10000):
        at = times[number * 7919 % cells]
        gone = {"deleteFromColumn": {"familyName": "b", "columnQualifier": encoded("n"), "timeRange": {"startTimestampMicros": str(at), "endTimestampMicros": str(at + 1)}}}
        changes += line("MutateRow", {"tableName": TABLE, "rowKey": encoded("r"), "mutations": [gone]})
        changes += line("MutateRow", {"tableName": TABLE, "rowKey": encoded("r"), "mutations": [cell("b", "n", at, "w")]})
    bare = run(program, MEMORY, CREATE + fill)
    return (run(program, MEMORY, CREATE + fill + changes) - bare) / 20000 * 1e6


def drops(program, rows):
    """Microseconds a line that drops the ten rows of a prefix of a table of so many rows."""
    fill = "".join(batches(rows))
    drop = "".join(line("DropRowRange", {"name": TABLE, "rowKeyPrefix": encoded(f"row{number:07}")}) for number in range(rows // 10))
    bare = run(program, MEMORY, CREATE + fill)
    return (run(program, MEMORY, CREATE + fill + drop) - bare) / drop.count("\n") * 1e6


def main():
    program, reader, where = (os.path.abspath(path) for path in sys.argv[1:4])
    lines, memory, disk = loads(program, reader, where, int(sys.argv[4]) if len(sys.argv) > 4 else 100000)
    disk_share(program, where, lines, memory, disk)
    for size in (1000, 10000, 100000):
        print(f"one cell of a row of {size}: {wide(program, size):.0f} us a line")
    for size in (1000, 10000, 100000):
        print(f"ten rows of a table of {size}: {drops(program, size):.0f} us a line")


main()
