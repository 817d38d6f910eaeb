#!/usr/bin/env python3
"""Values at the sizes at which chunks and responses end, and what a client joins of them.

    chunks.py PROGRAM DIR [SEED]

PROGRAM is the built bt_prog, DIR a folder in which one is made and removed. Rows of values of
chosen and of random lengths are written and read back; the replies are compared with chunks and
responses that are made here, and with the rows that a client joins of them. It ends with status 1 at
the first difference.
"""
import base64
import json
import random
import subprocess
import sys
import tempfile

INSTANCE = "projects/p/instances/i"
TABLE = f"{INSTANCE}/tables/t"
PIECE = 65536

# By row: the lengths of the values of f:q0, f:q1 and so on.
ROWS = {
    b"a": [PIECE], b"b": [PIECE - 1], b"c": [PIECE + 1], b"d": [PIECE - 1, 1], b"e": [PIECE - 2, 1], b"f": [0, PIECE, 0],
    b"g": [2 * PIECE], b"h": [2 * PIECE + 1], b"i": [3 * PIECE - 1], b"j": [40000, 40000, 40000], b"k": [1] * 63 + [PIECE + 1, 1],
    b"l": [4194304], b"m": [PIECE // 2, PIECE // 2, PIECE // 2 - 1, 1],
}


def spelled(data):
    return base64.b64encode(data).decode()


def line(method, request):
    return json.dumps({"method": method, "request": request}, separators=(",", ":")).encode() + b"\n"


def value(key, at, length):
    return (key + b"%d-" % at) * (length // (len(key) + 2) + 1)


def cells(rows):
    return {key: [(b"q%03d" % at, value(key, at, length)[:length]) for at, length in enumerate(lengths)] for key, lengths in rows.items()}


# ---- what is sent


def pieces(data):
    return [data[at:at + PIECE] for at in range(0, len(data), PIECE)] or [b""]


def chunks(key, row):
    for at, (qualifier, data) in enumerate(row):
        parts = pieces(data)
        for number, part in enumerate(parts):
            chunk = {}
            if at == 0 and number == 0:
                chunk.update(rowKey=spelled(key), familyName="f")
            if number == 0:
                chunk.update(qualifier=spelled(qualifier), timestampMicros="1000")
            if part:
                chunk["value"] = spelled(part)
            if number + 1 < len(parts):
                chunk["valueSize"] = len(data)
            elif at + 1 == len(row):
                chunk["commitRow"] = True
            yield chunk, len(part)


def responses(rows):
    open_chunks, size = [], 0
    for key in sorted(rows):
        for chunk, length in chunks(key, rows[key]):
            open_chunks.append(chunk)
            size += length
            if len(open_chunks) == 64 or size >= PIECE:
                yield open_chunks
                open_chunks, size = [], 0
    if open_chunks:
        yield open_chunks


# ---- what a client reads


def joined(replies):
    rows, key, row, begun = {}, None, [], None
    for chunk in (chunk for reply in replies for chunk in reply["response"]["chunks"]):
        data = base64.b64decode(chunk.get("value", ""))
        if begun is None:
            key = base64.b64decode(chunk["rowKey"]) if "rowKey" in chunk else key
            begun = (base64.b64decode(chunk["qualifier"]), b"")
        begun = (begun[0], begun[1] + data)
        if "valueSize" not in chunk:
            row, begun = row + [begun], None
        if chunk.get("commitRow"):
            rows[key], row = row, []
    return rows


def lengths_by_chance(seed):
    chance = random.Random(seed)
    around = [0, 1, 100, PIECE // 2, PIECE - 1, PIECE, PIECE + 1, 2 * PIECE]
    return {b"r%03d" % at: [max(0, chance.choice(around) + chance.randint(-2, 2)) for _ in range(chance.randint(1, 9))] for at in range(60)}


def main(words):
    rows = cells({**ROWS, **lengths_by_chance(int(words[2]) if len(words) > 2 else 1)})
    sent = [line("CreateTable", {"parent": INSTANCE, "tableId": "t", "table": {"columnFamilies": {"f": {}}}})]
    for key, row in rows.items():
        sets = [{"setCell": {"familyName": "f", "columnQualifier": spelled(q), "timestampMicros": "1000", "value": spelled(v)}} for q, v in row]
        sent.append(line("MutateRow", {"tableName": TABLE, "rowKey": spelled(key), "mutations": sets}))
    sent.append(line("ReadRows", {"tableName": TABLE}))
    with tempfile.TemporaryDirectory(dir=words[1]) as room:
        done = subprocess.run([words[0], "run", room], input=b"".join(sent), stdout=subprocess.PIPE, check=True)
    replies = [json.loads(it) for it in done.stdout.splitlines()[2 * len(sent) - 2:]]
    if replies.pop() != {"status": {}}:
        sys.exit("the read is not answered")
    if [it["response"]["chunks"] for it in replies] != list(responses(rows)):
        sys.exit("other responses")
    if joined(replies) != rows:
        sys.exit("other rows")
    print(f"{len(rows)} rows in {len(replies)} responses")


if len(sys.argv) not in (3, 4):
    sys.exit(__doc__)
main(sys.argv[1:])
