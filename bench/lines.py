#!/usr/bin/env python3
"""Writes request lines: a CreateTable, MUTATIONS MutateRow lines of about 250 bytes into at most
ROWS rows, and with the word read one ReadRows.

    lines.py MUTATIONS ROWS [read]
"""
import base64
import random
import sys

TABLE = "projects/p/instances/i/tables/t"


def text(data):
    return base64.b64encode(data.encode()).decode()


def main():
    mutations, rows = int(sys.argv[1]), int(sys.argv[2])
    chosen = random.Random(1)
    out = sys.stdout
    out.write('{"method":"CreateTable","request":{"parent":"projects/p/instances/i","tableId":"t",'
              '"table":{"columnFamilies":{"f":{}}}}}\n')
    for number in range(mutations):
        out.write('{"method":"MutateRow","request":{"tableName":"%s","rowKey":"%s","mutations":[{"setCell":'
                  '{"familyName":"f","columnQualifier":"%s","timestampMicros":"%d","value":"%s"}}]}}\n'
                  % (TABLE, text("row%08d" % chosen.randrange(rows)), text("q%d" % (number % 2)),
                     1000 * (1 + number % 7), text("v%023d" % number)))
    if sys.argv[3:] == ["read"]:
        out.write('{"method":"ReadRows","request":{"tableName":"%s"}}\n' % TABLE)


if __name__ == "__main__":
    main()
