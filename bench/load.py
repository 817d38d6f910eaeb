#!/usr/bin/env python3
"""Times lines through `run` and through `serve`, over tables of 1,000 and of 100,000 rows.

usage: load.py PROGRAM DIR [COMMITS [READS]]

PROGRAM is the built bt_prog, DIR a folder on the device to measure; folders are made in it and
removed. Over a folder that holds so many rows (written here, by docs/FORMATS.md alone), COMMITS
MutateRow lines of 100 value bytes and READS ReadRows lines of a table of one row are sent, and the
lines a second are printed, with the four bare calls of as many commits beside them.
"""
import os
import socket
import subprocess
import sys
import tempfile
import threading
import time

from storage import CREATE, compiled, mutate_line, record, row_body, seconds, write_folder

SMALL = "projects/p/instances/i/tables/small"
CREATE_SMALL = CREATE.replace('"tableId":"t"', '"tableId":"small"')
FILL_SMALL = mutate_line(1).replace("/tables/t", "/tables/small")
READ = '{"method":"ReadRows","request":{"tableName":"%s"}}\n' % SMALL


def through_run(program, folder, lines):
    return seconds([program, "run", folder], lines)


def send(client, lines):
    client.sendall(lines)
    client.shutdown(socket.SHUT_WR)


def through_serve(program, folder, lines):
    probe = socket.socket()
    probe.bind(("127.0.0.1", 0))
    port = probe.getsockname()[1]
    probe.close()
    server = subprocess.Popen([program, "serve", folder, f"127.0.0.1:{port}", "1"], stderr=subprocess.DEVNULL)
    client = None
    while client is None:
        try:
            client = socket.create_connection(("127.0.0.1", port))
        except ConnectionRefusedError:
            time.sleep(0.01)
    # the tables are loaded once the first reply is there
    client.sendall(READ.encode())
    while client.recv(1 << 20).count(b"\n") < 2:
        pass
    begun = time.perf_counter()
    sender = threading.Thread(target=send, args=(client, lines))
    sender.start()
    replies = []
    while data := client.recv(1 << 20):
        replies.append(data)
    sender.join()
    took = time.perf_counter() - begun
    client.close()
    server.wait()
    return took, b"".join(replies)


def best(times, lines, run):
    """The least time of so many runs, each of which must answer every line with success."""
    least = 1e9
    for attempt in range(times):
        took, replies = run(attempt)
        assert replies.count(b'{"status":{}}\n') == lines, replies[-300:]
        least = min(least, took)
    return least


def measure(program, floor, where, rows, commits, reads):
    written = "".join(mutate_line(number % rows) for number in range(commits)).encode()
    read = (READ * reads).encode()
    for name, through in (("run", through_run), ("serve", through_serve)):
        folder = os.path.join(where, f"{name}{rows}")
        write_folder(folder, rows * len(record(row_body(0))))
        through_run(program, folder, (CREATE_SMALL + FILL_SMALL).encode())
        reading = best(3, reads, lambda attempt: through(program, folder, read))
        start = best(3, 1, lambda attempt: through_run(program, folder, READ.encode())) if name == "run" else 0
        writing = best(3, commits, lambda attempt: through(program, folder, written))
        print(f"{name:6} {rows:8,} rows {commits / (writing - start):9.0f} commits a second "
              f"{reads / (reading - start):9.0f} reads a second")
    place = os.path.join(where, f"floor{rows}")
    length = str(len(row_body(0)))
    least = min(seconds([floor, place, str(commits), length])[0] for _ in range(3))
    print(f"floor  {'':8}      {commits / least:9.0f} commits a second")


def main():
    program, where = os.path.abspath(sys.argv[1]), os.path.abspath(sys.argv[2])
    commits = int(sys.argv[3]) if len(sys.argv) > 3 else 2000
    reads = int(sys.argv[4]) if len(sys.argv) > 4 else 40000
    with tempfile.TemporaryDirectory(dir=where) as folder:
        floor = compiled(folder)
        for rows in (1000, 100000):
            measure(program, floor, folder, rows, commits, reads)


if __name__ == "__main__":
    main()
