#!/usr/bin/env python3
"""Times filters over one row of many cells.

    filters.py PROGRAM DIR [CELLS]

PROGRAM is the built bt_prog, DIR a folder in which one is made and removed. One row has CELLS cells
(100,000, unless told), each in a column of its own; the filters leave few of them, so that what is
timed is the filter and not the printing of its answer. `first cell` is a limit of one cell alone:
the time to read the row. What one pattern takes is a tenth of what eleven take more than one, over
all values, which all match; beside it the time of `grep -c` over the same values, one a line. Best
of five.
"""
import base64
import json
import os
import subprocess
import sys
import tempfile
import time

TABLE = "projects/p/instances/i/tables/t"
PATTERN = "[0-9]*[0-4]?[0-9]"


def spelled(text):
    return base64.b64encode(text.encode()).decode()


def line(method, request):
    return (json.dumps({"method": method, "request": request}, separators=(",", ":")) + "\n").encode()


def read(asked):
    return line("ReadRows", {"tableName": TABLE, "filter": asked})


def value(at):
    return str((at * 2654435761) % 2**32)


def cell(at):
    names = {"familyName": "f", "columnQualifier": spelled(f"q{at:06}"), "timestampMicros": str(at % 7 * 1000)}
    return {"setCell": {**names, "value": spelled(value(at))}}


def preparations(cells):
    yield line("CreateTable", {"parent": "projects/p/instances/i", "tableId": "t", "table": {"columnFamilies": {"f": {}}}})
    for first in range(0, cells, 5000):
        sets = [cell(at) for at in range(first, min(first + 5000, cells))]
        yield line("MutateRow", {"tableName": TABLE, "rowKey": spelled("r"), "mutations": sets})


def chain(*parts):
    return {"chain": {"filters": list(parts)}}


def interleave(*parts):
    return {"interleave": {"filters": list(parts)}}


ALL = {"passAllFilter": True}
FIRST = {"cellsPerRowLimitFilter": 1}
TEN = chain(
    {"rowKeyRegexFilter": spelled("r.*")}, {"familyNameRegexFilter": "[a-f]"}, {"columnQualifierRegexFilter": spelled("q.*")},
    {"columnRangeFilter": {"familyName": "f", "startQualifierClosed": spelled("q000010")}}, {"timestampRangeFilter": {"startTimestampMicros": "1000"}},
    {"valueRangeFilter": {"startValueClosed": spelled("1")}}, {"cellsPerColumnLimitFilter": 1}, {"cellsPerRowOffsetFilter": 5},
    {"applyLabelTransformer": "kept"}, FIRST)
EIGHT = chain(interleave(*[chain({"valueRegexFilter": spelled(f"[0-9]*{digit}")}) for digit in range(7)], ALL), FIRST)
FILTERS = {
    "first cell": FIRST,
    "chain of ten kinds": TEN,
    "interleave of eight": EIGHT,
    "one pattern": chain({"valueRegexFilter": spelled(PATTERN)}, FIRST),
    "eleven patterns": chain(*[{"valueRegexFilter": spelled(PATTERN)}] * 11, FIRST),
}


class Service:
    def __init__(self, program, folder):
        self.process = subprocess.Popen([program, "run", folder], stdin=subprocess.PIPE, stdout=subprocess.PIPE)

    def ask(self, asked):
        """The time of a request, up to its status line."""
        began = time.perf_counter()
        self.process.stdin.write(asked)
        self.process.stdin.flush()
        while not (reply := self.process.stdout.readline()).startswith(b'{"status"'):
            pass
        taken = time.perf_counter() - began
        if reply != b'{"status":{}}\n':
            sys.exit(f"answered {reply}")
        return taken

    def end(self):
        self.process.stdin.close()
        self.process.wait()


def of_grep(folder, cells):
    path = os.path.join(folder, "values")
    with open(path, "w") as out:
        out.writelines(f"{value(at)}\n" for at in range(cells))
    began = time.perf_counter()
    subprocess.run(["grep", "-c", "-E", f"^{PATTERN}$", path], stdout=subprocess.DEVNULL, check=True)
    return time.perf_counter() - began


def main(words):
    if len(words) not in (2, 3):
        sys.exit(__doc__)
    cells = int(words[2]) if len(words) == 3 else 100_000
    with tempfile.TemporaryDirectory(dir=words[1]) as folder:
        service = Service(words[0], os.path.join(folder, "data"))
        for asked in preparations(cells):
            service.ask(asked)
        times = {name: min(service.ask(read(asked)) for _ in range(5)) for name, asked in FILTERS.items()}
        service.end()
        times["grep -c"] = min(of_grep(folder, cells) for _ in range(5))
    for name, taken in times.items():
        print(f"{name:<22}{taken * 1000:9.1f} ms")
    each = (times["eleven patterns"] - times["one pattern"]) / 10
    print(f"{'a pattern':<22}{each * 1000:9.1f} ms")
    print(f"{'a pattern beside grep':<22}{each / times['grep -c']:9.2f}")


main(sys.argv[1:])
