"""A table of sets of rows and limits over small tables, and what each read is answered.

The replies are worked out by a reading of the public documentation of ReadRowsRequest that shares no
code with the program.
"""
import base64
import json

INSTANCE = "projects/p/instances/i"
TABLE = f"{INSTANCE}/tables/rows"
WIDE = f"{INSTANCE}/tables/wide"

# The value of f:q by row; every other row has a second column, f:r.
KEYS = [b"\x00", b"a", b"a\x00", b"a\x00\x00", b"ab", b"b", b"b\xff", b"k1", b"k2", b"k3", b"\xff", b"\xff\xff"]
VALUES = {key: b"x" if at % 3 == 0 else b"v" for at, key in enumerate(KEYS)}

# The rows of the wide table, by the number of their cells.
WIDTHS = {b"a": 63, b"b": 1, b"c": 1, b"d": 129, b"e": 64}


def spelled(data):
    return base64.b64encode(data).decode()


def compact(value):
    return json.dumps(value, separators=(",", ":"), sort_keys=True)


def line(method, request):
    return json.dumps({"method": method, "request": request}, separators=(",", ":"))


def cells_of(key):
    return [(b"q", VALUES[key])] + ([(b"r", b"w")] if KEYS.index(key) % 2 else [])


# ---- which rows, and their chunks


def is_from(bound, key):
    name, at = bound
    return {"startKeyClosed": key >= at, "startKeyOpen": key > at, "endKeyClosed": key <= at or at == b"", "endKeyOpen": key < at or at == b""}[name]


def is_selected(keys, ranges, key):
    return not (keys or ranges) or key in keys or any(all(is_from(bound, key) for bound in bounds.items()) for bounds in ranges)


def chunks_of(key, cells):
    """Cells of f at timestamp 1000, by their qualifiers and values."""
    for at, (qualifier, value) in enumerate(cells):
        chunk = {"qualifier": spelled(qualifier), "timestampMicros": "1000"}
        if at == 0:
            chunk.update(rowKey=spelled(key), familyName="f")
        if value:
            chunk["value"] = spelled(value)
        if at + 1 == len(cells):
            chunk["commitRow"] = True
        yield chunk


def responses_of(chunks):
    chunks = list(chunks)
    return [compact({"response": {"chunks": chunks[at:at + 64]}}) for at in range(0, len(chunks), 64)]


def answer(keys, ranges, kept, limit):
    found = [(key, [cell for cell in cells_of(key) if kept(cell)]) for key in sorted(KEYS) if is_selected(keys, ranges, key)]
    found = [row for row in found if row[1]]
    chunks = [chunk for row in found[:limit or None] for chunk in chunks_of(*row)]
    return responses_of(chunks) + ['{"status":{}}']


# ---- the reads

FILTERS = [
    (None, lambda cell: True),
    ({"valueRegexFilter": spelled(b"v")}, lambda cell: cell[1] == b"v"),
    ({"columnQualifierRegexFilter": spelled(b"r")}, lambda cell: cell[0] == b"r"),
    ({"blockAllFilter": True}, lambda cell: False),
]


def between(start=None, end=None, start_open=False, end_open=True):
    bounds = {}
    if start is not None:
        bounds["startKeyOpen" if start_open else "startKeyClosed"] = start
    if end is not None:
        bounds["endKeyOpen" if end_open else "endKeyClosed"] = end
    return bounds


SETS = [
    ([], []),
    ([b"k2"], []), ([b"k2", b"k2", b"k3"], []), ([b"k3", b"a", b"zz"], []), ([b""], []), ([b"", b"a"], []), ([b"nothing"], []),
    ([b"a" * 4096], []), ([b"a" * 4097, b"b"], []), ([b"a\x00"], []), ([b"\xff\xff"], []), (KEYS, []), (KEYS[::-1], []),
    ([], [between()]), ([], [between(b"k1", b"k3")]), ([], [between(b"k1", b"k3", True, False)]), ([], [between(b"k1", b"k3", False, False)]),
    ([], [between(b"k1", b"k1")]), ([], [between(b"k1", b"k1", False, False)]), ([], [between(b"k1", b"k1", True, False)]),
    ([], [between(b"z", b"a")]), ([], [between(b"z", b"a", False, False)]), ([], [between(b"", b"")]), ([], [between(b"", b"", True, False)]),
    ([], [between(b"a", None)]), ([], [between(b"a", None, True)]), ([], [between(None, b"a")]), ([], [between(None, b"a", False, False)]),
    ([], [between(b"a", b"a\x00", True, False)]), ([], [between(b"a", b"a\x00\x00", True)]), ([], [between(b"a", b"a\x00", True)]),
    ([], [between(b"\xff")]), ([], [between(b"\xff", None, True)]), ([], [between(b"\xff\xff", None, True)]),
    ([], [between(b"a", b"b"), between(b"b", b"k1")]), ([], [between(b"b", b"k2"), between(b"a", b"k1")]),
    ([], [between(b"a", b"k1"), between(b"a", b"k1")]), ([], [between(b"a", b"ab"), between(b"k1", None)]),
    ([], [between(b"k2", None), between(None, b"a"), between(b"z", b"b")]),
    ([b"k2", b"k2", b"k3"], [between(b"k1", b"k3"), between(b"z", b"a"), between(b"k3", b"")]),
    ([b"ab"], [between(b"a", b"ab")]), ([b"ab", b"b"], [between(b"a", b"ab", True, False), between(b"b", b"b\xff", True)]),
    ([b"\x00"], [between(b"b" * 4097, None)]), ([], [between(b"a" * 4097, b"k1", True)]), ([], [between(b"a", b"k" * 5000, False, False)]),
]

LIMITS = [0, 1, 2, 5, 12, 2**63 - 1]


def read(keys, ranges, asked, limit):
    request = {"tableName": TABLE}
    if keys or ranges:
        request["rows"] = {}
    if keys:
        request["rows"]["rowKeys"] = [spelled(key) for key in keys]
    if ranges:
        request["rows"]["rowRanges"] = [{name: spelled(at) for name, at in bounds.items()} for bounds in ranges]
    if asked is not None:
        request["filter"] = asked
    if limit:
        request["rowsLimit"] = str(limit)
    return line("ReadRows", request)


def refused(text, code=3):
    return [compact({"status": {"code": code, "message": text}})]


def set_cell(qualifier, value):
    return {"setCell": {"familyName": "f", "columnQualifier": spelled(qualifier), "timestampMicros": "1000", "value": spelled(value)}}


def preparations():
    for name in ("rows", "wide"):
        table = {"columnFamilies": {"f": {}}, "granularity": "MILLIS", "name": f"{INSTANCE}/tables/{name}"}
        yield line("CreateTable", {"parent": INSTANCE, "tableId": name, "table": {"columnFamilies": {"f": {}}}}), [compact({"response": table}), '{"status":{}}']
    entries = [{"rowKey": spelled(key), "mutations": [set_cell(*cell) for cell in cells_of(key)]} for key in KEYS]
    done = [compact({"response": {"entries": [{"status": {}} if at == 0 else {"index": str(at), "status": {}} for at in range(len(KEYS))]}}), '{"status":{}}']
    yield line("MutateRows", {"tableName": TABLE, "entries": entries}), done
    for key, width in WIDTHS.items():
        sets = [set_cell(b"%03d" % at, b"") for at in range(width)]
        yield line("MutateRow", {"tableName": WIDE, "rowKey": spelled(key), "mutations": sets}), ['{"response":{}}', '{"status":{}}']


def wide_pairs():
    """Rows that end within a response, with one, and go on in the next."""
    for keys in ([b"a"], [b"a", b"b"], [b"a", b"b", b"c"], [b"d"], [b"e"], [b"e", b"b"], list(WIDTHS)):
        chunks = [chunk for key in sorted(keys) for chunk in chunks_of(key, [(b"%03d" % at, b"") for at in range(WIDTHS[key])])]
        yield line("ReadRows", {"tableName": WIDE, "rows": {"rowKeys": [spelled(key) for key in keys]}}), responses_of(chunks) + ['{"status":{}}']


def refusals():
    yield line("ReadRows", {"tableName": TABLE, "rowsLimit": "-1"}), refused("negative rowsLimit")
    yield line("ReadRows", {"tableName": TABLE, "rowsLimit": -1, "filter": {"sink": False}}), refused("negative rowsLimit")
    yield line("ReadRows", {"tableName": f"{INSTANCE}/tables/none", "rowsLimit": "-1"}), refused("table not found", 5)
    yield line("ReadRows", {"tableName": TABLE, "rowsLimit": "9223372036854775808"}), refused("bad field rowsLimit")
    yield line("ReadRows", {"tableName": TABLE, "rowsLimit": 1.0}), refused("bad field rowsLimit")
    yield line("ReadRows", {"tableName": TABLE, "rows": []}), refused("bad field rows")
    yield line("ReadRows", {"tableName": TABLE, "rows": {"rowKeys": "YQ=="}}), refused("bad field rowKeys")
    yield line("ReadRows", {"tableName": TABLE, "rows": {"rowKeys": ["YQ==", None]}}), refused("bad field rowKeys")
    yield line("ReadRows", {"tableName": TABLE, "rows": {"rowKeys": ["Y?=="]}}), refused("bad field rowKeys")
    yield line("ReadRows", {"tableName": TABLE, "rows": {"rowRanges": [{"startKeyClosed": "YQ==", "startKeyOpen": "YQ=="}]}}), refused("bad field startKeyOpen")
    yield line("ReadRows", {"tableName": TABLE, "rows": {"rowRanges": [{"endKeyOpen": "", "endKeyClosed": ""}]}}), refused("bad field endKeyOpen")
    yield line("ReadRows", {"tableName": TABLE, "rows": {"rowRanges": [{"start": "YQ=="}]}}), refused("bad field start")
    yield line("ReadRows", {"tableName": TABLE, "rows": {"row_keys": ["YQ=="], "rowKeys": ["YQ=="]}}), refused("bad field rowKeys")


def pairs():
    yield from preparations()
    for keys, ranges in SETS:
        yield read(keys, ranges, None, 0), answer(keys, ranges, FILTERS[0][1], 0)
    for keys, ranges in (SETS[0], SETS[2], SETS[14], SETS[37], SETS[39], SETS[41]):
        for asked, kept in FILTERS:
            for limit in LIMITS:
                yield read(keys, ranges, asked, limit), answer(keys, ranges, kept, limit)
    yield from wide_pairs()
    yield from refusals()
    yield line("ReadRows", {"table_name": TABLE, "rows": {"row_keys": ["azI"], "row_ranges": [{"start_key_open": "azI=", "end_key_closed": "azM"}]}, "rows_limit": 1}), responses_of(chunks_of(b"k2", cells_of(b"k2"))) + ['{"status":{}}']
