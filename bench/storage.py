#!/usr/bin/env python3
"""Times commits and start-up of the built program over a folder.

usage: storage.py PROGRAM DIR [COMMITS [BYTES]]

PROGRAM is the built bt_prog, DIR a folder on the device to measure; folders are made in it and
removed. Printed are commits a second through `run` for values of 100 bytes, the floor beside them
(the four bare calls of each commit, four_calls.c, on records of the same length), and the time to
start over a segment of BYTES bytes (100,000,000 unless given) of entries with such values. The
segment is written here, by docs/FORMATS.md alone. Both kinds of commits run in turn, five times,
and the best time of each counts.
"""
import base64
import os
import struct
import subprocess
import sys
import tempfile
import time

HERE = os.path.dirname(os.path.abspath(__file__))
TABLE = "projects/p/instances/i/tables/t"
CREATE = ('{"method":"CreateTable","request":{"parent":"projects/p/instances/i","tableId":"t",'
          '"table":{"columnFamilies":{"f":{}}}}}\n')
READ = '{"method":"ReadRows","request":{"tableName":"projects/p/instances/i/tables/other"}}\n'
VALUE = b"v" * 100
MOMENT = 5_000_000


def text(data):
    return base64.b64encode(data).decode()


def key(number):
    return b"row%08d" % number


def mutate_line(number):
    return ('{"method":"MutateRow","request":{"tableName":"%s","rowKey":"%s","mutations":[{"setCell":'
            '{"familyName":"f","columnQualifier":"cQ==","timestampMicros":"1000","value":"%s"}}]}}\n'
            % (TABLE, text(key(number)), text(VALUE)))


def sized(width, data):
    return len(data).to_bytes(width, "big") + data


def create_body():
    families = struct.pack(">H", 1) + sized(1, b"f") + b"\0"
    return struct.pack(">IQB", 1, MOMENT, 3) + sized(2, TABLE.encode()) + families + bytes(8)


def row_body(number):
    mutation = b"\1" + sized(1, b"f") + sized(2, b"q") + struct.pack(">Q", 1000) + sized(4, VALUE)
    return struct.pack(">IQBQ", 1, MOMENT, 1, 1) + sized(2, key(number)) + struct.pack(">I", 1) + mutation


def record(body):
    return b"\1" + sized(4, body)


def write_folder(folder, size):
    """A manifest of one segment, and a segment of about that many bytes. Gives the number of rows."""
    os.makedirs(folder)
    body = struct.pack(">QQQIQQII", 3, 0, 0, 1, 2, 1, 0, 4) + bytes(4)
    with open(os.path.join(folder, "1.bt"), "wb") as slot:
        slot.write(b"\1" + struct.pack(">Q", 1) + sized(4, body))
    one = len(record(row_body(0)))
    rows = size // one
    with open(os.path.join(folder, "2.bt"), "wb") as segment:
        segment.write(record(create_body()))
        for number in range(rows):
            segment.write(record(row_body(number)))
        segment.write(b"\0")
    return rows


def seconds(command, lines=None):
    begun = time.perf_counter()
    done = subprocess.run(command, input=lines, check=True, stdout=subprocess.PIPE)
    return time.perf_counter() - begun, done.stdout


def compiled(folder):
    program = os.path.join(folder, "four_calls")
    subprocess.run(["cc", "-O2", "-o", program, os.path.join(HERE, "four_calls.c")], check=True)
    return program


def commits_a_second(program, floor, where, count):
    lines = (CREATE + "".join(mutate_line(number) for number in range(count))).encode()
    length = len(row_body(0))
    best_run, best_floor = 1e9, 1e9
    for attempt in range(5):
        folder = os.path.join(where, "run%d" % attempt)
        start, _ = seconds([program, "run", folder + "s"], CREATE.encode())
        whole, replies = seconds([program, "run", folder], lines)
        assert replies.count(b'{"status":{}}\n') == count + 1, replies[-300:]
        best_run = min(best_run, whole - start)
        place = os.path.join(where, "floor%d" % attempt)
        start, _ = seconds([floor, place, "0", str(length)])
        whole, _ = seconds([floor, place, str(count), str(length)])
        best_floor = min(best_floor, whole - start)
    return count / best_run, count / best_floor


def start_up(program, where, size):
    folder = os.path.join(where, "large%d" % size)
    rows = write_folder(folder, size)
    best = min(seconds([program, "run", folder], READ.encode())[0] for _ in range(3))
    return rows, best


def main():
    program, where = os.path.abspath(sys.argv[1]), os.path.abspath(sys.argv[2])
    count = int(sys.argv[3]) if len(sys.argv) > 3 else 2000
    size = int(sys.argv[4]) if len(sys.argv) > 4 else 100_000_000
    with tempfile.TemporaryDirectory(dir=where) as folder:
        run, floor = commits_a_second(program, compiled(folder), folder, count)
        print(f"commits through run   {run:10.0f} a second")
        print(f"four bare calls       {floor:10.0f} a second")
        print(f"ratio                 {floor / run:10.2f}")
        for part in (size // 10, size):
            rows, best = start_up(program, folder, part)
            print(f"start-up              {best:10.2f} s over {part:,} bytes, {rows:,} rows")


if __name__ == "__main__":
    main()
