#!/usr/bin/env python3
"""Requests at their limits, and one past them.

    limits.py PROGRAM DIR

PROGRAM is the built bt_prog, DIR a folder in which one is made and removed. It ends with status 1 at
the first request that is not answered as the limits say.
"""
import base64
import json
import subprocess
import sys
import tempfile

INSTANCE = "projects/p/instances/i"
TABLE = f"{INSTANCE}/tables/t0"
OK = b'{"status":{}}\n'


def spelled(data):
    return base64.b64encode(data).decode()


def refused(code, text):
    return json.dumps({"status": {"code": code, "message": text}}, separators=(",", ":")).encode() + b"\n"


def create(name, families):
    return "CreateTable", {"parent": INSTANCE, "tableId": name, "table": {"columnFamilies": {f: {} for f in families}}}


def mutate(key=b"r", qualifier=b"q", value=b"v", count=1):
    cell = {"familyName": "f", "columnQualifier": spelled(qualifier), "timestampMicros": "1000", "value": spelled(value)}
    return "MutateRow", {"tableName": TABLE, "rowKey": spelled(key), "mutations": [{"setCell": cell}] * count}


def mutate_rows(*counts):
    delete = {"deleteFromRow": {}}
    return "MutateRows", {"tableName": TABLE, "entries": [{"rowKey": "cg==", "mutations": [delete] * count} for count in counts]}


def check(yes, no):
    delete = {"deleteFromFamily": {"familyName": "f"}}
    return "CheckAndMutateRow", {"tableName": TABLE, "rowKey": "cg==", "trueMutations": [delete] * yes, "falseMutations": [delete] * no}


def append(key, value, qualifier=b"q", count=1):
    rule = {"familyName": "f", "columnQualifier": spelled(qualifier), "appendValue": spelled(value)}
    return "ReadModifyWriteRow", {"tableName": TABLE, "rowKey": spelled(key), "rules": [rule] * count}


def families(count):
    return ["f"] + [f"f{i}" for i in range(1, count)]


def filtered(asked):
    return "ReadRows", {"tableName": TABLE, "filter": asked}


def cases():
    yield create("t0", families(100)), OK
    yield create("many", families(101)), refused(9, "too many families")
    for number in range(1, 1000):
        yield create(f"t{number}", []), OK
    yield create("t1000", []), refused(9, "too many tables")
    yield ("DeleteTable", {"name": f"{INSTANCE}/tables/t999"}), OK
    yield create("t1000", []), OK
    yield mutate(key=b"k" * 4096), OK
    yield mutate(key=b"k" * 4097), refused(3, "bad row key")
    yield mutate(qualifier=b"q" * 16384), OK
    yield mutate(qualifier=b"q" * 16385), refused(3, "qualifier too long")
    yield mutate(value=b"v" * 4194304), OK
    yield mutate(value=b"v" * 4194305), refused(3, "value too large")
    yield mutate(count=100000), OK
    yield mutate(count=100001), refused(3, "too many mutations")
    yield mutate_rows(50000, 50000), OK
    yield mutate_rows(50000, 50001), refused(3, "too many mutations")
    yield check(100000, 100000), OK
    yield check(100001, 0), refused(3, "too many mutations")
    yield check(1, 100001), refused(3, "too many mutations")
    yield append(b"a", b"v" * 4194303), OK
    yield append(b"a", b"v"), OK
    yield append(b"a", b"v"), refused(3, "value too large")
    yield append(b"a", b""), OK
    yield append(b"a", b"v", qualifier=b"q" * 16384), OK
    yield append(b"a", b"v", qualifier=b"q" * 16385), refused(3, "qualifier too long")
    yield append(b"c", b"v", count=100000), OK
    yield append(b"c", b"v", count=100001), refused(3, "too many rules")
    yield filtered({"interleave": {"filters": [{"blockAllFilter": True}] * 1023}}), OK
    yield filtered({"interleave": {"filters": [{"blockAllFilter": True}] * 1024}}), refused(3, "too many filters")


def main(words):
    if len(words) != 2:
        sys.exit(__doc__)
    with tempfile.TemporaryDirectory(dir=words[1]) as folder:
        service = subprocess.Popen([words[0], "run", f"{folder}/data"], stdin=subprocess.PIPE, stdout=subprocess.PIPE)
        count = 0
        for (method, request), wanted in cases():
            service.stdin.write(json.dumps({"method": method, "request": request}).encode() + b"\n")
            service.stdin.flush()
            while not (status := service.stdout.readline()).startswith(b'{"status"'):
                pass
            if status != wanted:
                sys.exit(f"{method} {str(request)[:200]} is answered {status}, not {wanted}")
            count += 1
        service.stdin.close()
        if service.wait() != 0:
            sys.exit(f"status {service.returncode}")
    print(f"{count} requests are answered as the limits say")


main(sys.argv[1:])
