#!/usr/bin/env python3
"""Times reads by key and scans, and takes the memory of a large scan.

    reads.py PROGRAM DIR [ROWS]

PROGRAM is the built bt_prog, DIR a folder in which one is made and removed. Reads of single rows by
their keys, over tables of 10,000 and of ROWS rows (1,000,000, unless told); scans of 100,000 rows of
four cells with values of ten bytes, whole and through a filter; beside them the time that Python's
json takes to print the same replies. Then a scan whose reply has 500 MB, with the most memory that
the program had before it and behind it. Best of three.
"""
import base64
import json
import subprocess
import sys
import tempfile
import time

INSTANCE = "projects/p/instances/i"
TABLE = f"{INSTANCE}/tables/t"


def spelled(data):
    return base64.b64encode(data).decode()


def line(method, request):
    return (json.dumps({"method": method, "request": request}, separators=(",", ":")) + "\n").encode()


def key(at):
    return b"row%08d" % at


def set_cell(family, qualifier, at, value):
    return {"setCell": {"familyName": family, "columnQualifier": spelled(qualifier), "timestampMicros": str(at), "value": spelled(value)}}


def filling(rows, sets, batch=1000):
    yield line("CreateTable", {"parent": INSTANCE, "tableId": "t", "table": {"columnFamilies": {"a": {}, "b": {}}}})
    for first in range(0, rows, batch):
        entries = [{"rowKey": spelled(key(at)), "mutations": sets(at)} for at in range(first, min(first + batch, rows))]
        yield line("MutateRows", {"tableName": TABLE, "entries": entries})


def one_cell(at):
    return [set_cell("a", b"q", 1000, b"%010d" % at)]


def four_cells(at):
    value = b"%010d" % (at * 2654435761 % 2**32)
    return [set_cell("a", b"q", t, value) for t in (1000, 2000, 3000)] + [set_cell("b", b"n", 1000, value)]


class Program:
    """The program over a new folder, which is told lines and asked for their replies."""

    def __init__(self, program, folder):
        self.process = subprocess.Popen([program, "run", folder], stdin=subprocess.PIPE, stdout=subprocess.PIPE, bufsize=1 << 20)

    def replies(self, lines):
        """Sends the lines in pieces, and returns the number of bytes of their replies: none of the pieces fills the pipe."""
        size = 0
        for some in lines:
            self.process.stdin.write(some)
            self.process.stdin.flush()
            size += self.until_status(some.count(b"\n"))
        return size

    def until_status(self, count):
        size = 0
        while count:
            reply = self.process.stdout.readline()
            size += len(reply)
            count -= reply.startswith(b'{"status"')
        return size

    def most_memory(self):
        with open(f"/proc/{self.process.pid}/status", encoding="ascii") as told:
            return next(int(it.split()[1]) // 1024 for it in told if it.startswith("VmHWM"))

    def end(self):
        self.process.stdin.close()
        self.process.wait()


def timed(program, lines):
    before = time.monotonic()
    size = program.replies(lines)
    return time.monotonic() - before, size


def point_reads(path, folder, rows, count=20000):
    with tempfile.TemporaryDirectory(dir=folder) as room:
        program = Program(path, room)
        program.replies(filling(rows, one_cell))
        keys = [key(at * 7919 % rows) for at in range(count)]
        reads = [line("ReadRows", {"tableName": TABLE, "rows": {"rowKeys": [spelled(it)]}}) for it in keys]
        pieces = [b"".join(reads[at:at + 100]) for at in range(0, count, 100)]
        best = min(timed(program, pieces)[0] for _ in range(3))
        program.end()
    print(f"point reads {rows:>11,} rows {count / best:10.0f} a second")
    return count / best


def scans(path, folder, rows=100000):
    with tempfile.TemporaryDirectory(dir=folder) as room:
        program = Program(path, room)
        program.replies(filling(rows, four_cells))
        for name, request in (("scan", {}), ("scan, newest cells", {"filter": {"cellsPerColumnLimitFilter": 1}})):
            best, size = min(timed(program, [line("ReadRows", {"tableName": TABLE, **request})]) for _ in range(3))
            print(f"{name:19} {rows:,} rows {rows / best:10.0f} rows a second, {size / best / 1e6:.0f} MB a second")
        program.end()
    chunks = [{"rowKey": spelled(key(1)), "familyName": "a", "qualifier": "cQ==", "timestampMicros": "3000", "value": spelled(b"1234567890")}]
    chunks += [{"timestampMicros": "2000", "value": spelled(b"1234567890")}] * 2 + [{"familyName": "b", "qualifier": "bg==", "value": spelled(b"1234567890"), "commitRow": True}]
    before = time.monotonic()
    for _ in range(rows // 16):
        json.dumps({"response": {"chunks": chunks * 16}}, separators=(",", ":"))
    print(f"Python's json       {rows:,} rows {rows / (time.monotonic() - before):10.0f} rows a second")


def large_scan(path, folder, megabytes=500):
    value = b"x" * 750000
    with tempfile.TemporaryDirectory(dir=folder) as room:
        program = Program(path, room)
        program.replies(filling(megabytes, lambda at: [set_cell("a", b"q", 1000, value)], batch=10))
        before = program.most_memory()
        _, size = timed(program, [line("ReadRows", {"tableName": TABLE})])
        print(f"scan of {size / 1e6:.0f} MB: {program.most_memory() - before} MB more than the {before} MB before it")
        program.end()


def main(words):
    path, folder = words[:2]
    rows = int(words[2]) if len(words) > 2 else 1000000
    few, many = point_reads(path, folder, 10000), point_reads(path, folder, rows)
    print(f"many beside few     {many / few:.2f}")
    scans(path, folder)
    large_scan(path, folder)


if len(sys.argv) not in (3, 4):
    sys.exit(__doc__)
main(sys.argv[1:])
