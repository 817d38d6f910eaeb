#!/usr/bin/env python3
"""Kills the program at random moments under load, opens it again, and looks for every row that it
acknowledged.

usage: kills.py PROGRAM DIR [TIMES]

PROGRAM is the built bt_prog, DIR a folder in which one is made and removed. Each time the program
is started over the same folder, rows are sent without waiting for replies, and signal 9 ends it
a random while after its first reply. Then it is started again and read: each row whose OK line had come must be
there with its value, and no row may be there that was not sent. It ends with status 1 at the first
row that is not so.
"""
import base64
import json
import os
import random
import subprocess
import sys
import tempfile
import threading
import time

TABLE = "projects/p/instances/i/tables/t"
CREATE = {"method": "CreateTable",
          "request": {"parent": "projects/p/instances/i", "tableId": "t", "table": {"columnFamilies": {"f": {}}}}}
READ = {"method": "ReadRows", "request": {"tableName": TABLE}}


def text(data):
    return base64.b64encode(data.encode()).decode()


def mutate(number):
    cell = {"familyName": "f", "columnQualifier": text("q"), "timestampMicros": "1000", "value": text("v%d" % number)}
    return {"method": "MutateRow",
            "request": {"tableName": TABLE, "rowKey": text("r%09d" % number), "mutations": [{"setCell": cell}]}}


def line(request):
    return (json.dumps(request) + "\n").encode()


def send(pipe, first, sent):
    try:
        number = first
        while True:
            sent[0] = number + 1
            pipe.write(line(mutate(number)))
            pipe.flush()
            number += 1
    except (BrokenPipeError, ValueError, OSError):
        pass


def killed(program, folder, first, wait):
    """Sends rows from `first` on until the kill. Gives the number sent and the number acknowledged."""
    run = subprocess.Popen([program, "run", folder], stdin=subprocess.PIPE, stdout=subprocess.PIPE)
    sent = [first]
    sender = threading.Thread(target=send, args=(run.stdin, first, sent))
    sender.start()
    replies = run.stdout.read(1)
    killer = threading.Timer(wait, run.kill)
    killer.start()
    replies += run.stdout.read()
    run.wait()
    sender.join()
    return sent[0] - first, replies.count(b'{"status":{}}\n')


def rows(program, folder):
    done = subprocess.run([program, "run", folder], input=line(READ), stdout=subprocess.PIPE, check=True)
    *responses, last = done.stdout.splitlines()
    assert last == b'{"status":{}}', last
    chunks = [chunk for line in responses for chunk in json.loads(line)["response"]["chunks"]]
    return {base64.b64decode(c["rowKey"]).decode(): base64.b64decode(c["value"]).decode() for c in chunks}


def main():
    program, where = os.path.abspath(sys.argv[1]), os.path.abspath(sys.argv[2])
    times = int(sys.argv[3]) if len(sys.argv) > 3 else 100
    chance = random.Random(1)
    with tempfile.TemporaryDirectory(dir=where) as folder:
        data = os.path.join(folder, "data")
        subprocess.run([program, "run", data], input=line(CREATE), stdout=subprocess.DEVNULL, check=True)
        first, wanted, possible = 0, {}, set()
        begun = time.perf_counter()
        for _ in range(times):
            sent, acknowledged = killed(program, data, first, chance.uniform(0.0, 0.3))
            for number in range(first, first + acknowledged):
                wanted["r%09d" % number] = "v%d" % number
            possible.update("r%09d" % number for number in range(first, first + sent))
            there = rows(program, data)
            missing = [key for key, value in wanted.items() if there.get(key) != value]
            strange = [key for key in there if key not in possible]
            if not acknowledged:
                sys.exit("nothing was acknowledged before the kill")
            if missing or strange:
                sys.exit(f"missing {missing[:3]}, never sent {strange[:3]}")
            first += sent
        print(f"killed {times} times in {time.perf_counter() - begun:.0f} s: {len(wanted)} acknowledged rows, "
              f"all there; {len(there) - len(wanted)} more that were not acknowledged")


main()
