"""A table of filters over small rows, and what each read is answered.

The replies are worked out by a reading of the public documentation of RowFilter that shares no code
with the program.
"""
import base64
import json
import re

INSTANCE = "projects/p/instances/i"

# By table: the families, and for each row the cells (family, qualifier, timestamp, value).
TABLES = {
    "letters": (["A", "B"], {
        b"r": [("A", b"A", 1000, b"w"), ("A", b"B", 2000, b"x"), ("B", b"B", 4000, b"z")],
    }),
    "numbers": (["f"], {
        b"r": [("f", b"a", 1000, b"1"), ("f", b"b", 1000, b"2"), ("f", b"c", 1000, b"3")],
    }),
    "versions": (["f", "g"], {
        b"r": [("f", b"q", 2000, b"b"), ("f", b"q", 1000, b"a")],
        b"s": [
            ("f", b"p", 3000, b"p3"), ("f", b"p", 2000, b"p2"), ("f", b"p", 1000, b"p1"),
            ("f", b"q", 2000, b"q2"), ("f", b"q", 0, b""),
            ("g", b"p", 5000, b"g5"), ("g", b"p", 1000, b"g1"),
        ],
    }),
    "keys": (["f", "fam-1"], {
        b"Row-1": [("f", b"", 1000, b"v")],
        b"a\xff\n": [("f", b"q", 1000, b"v")],
        b"row.1": [("f", b"q", 1000, b"a\nb"), ("fam-1", b"q\x00", 1000, b"\xff\xfe")],
        b"row11": [("fam-1", b"qq", 1000, b"ab")],
    }),
    "empty": (["f"], {}),
}


def spelled(data):
    return base64.b64encode(data).decode()


def line(method, request):
    return json.dumps({"method": method, "request": request}, separators=(",", ":"))


def table_name(table):
    return f"{INSTANCE}/tables/{table}"


# ---- what a filter means: the cells it gives, and those that go past all filters

LABEL = 4


def in_order(cells):
    return sorted(cells, key=lambda c: (c[0].encode(), c[1], -c[2]))


def matches(pattern, text):
    if re.fullmatch(rb"[A-Za-z0-9_-]*", pattern):
        return pattern == text
    source = pattern.replace(rb"\C", b"(?s:.)").replace(rb"\z", rb"\Z")
    return re.fullmatch(source, text) is not None


def data(text):
    text = text.replace("-", "+").replace("_", "/")
    return base64.b64decode(text if "=" in text else text + "=" * (-len(text) % 4))


def is_in(bounds, start, end, value):
    if f"start{start}Closed" in bounds and value < data(bounds[f"start{start}Closed"]):
        return False
    if f"start{start}Open" in bounds and value <= data(bounds[f"start{start}Open"]):
        return False
    if f"end{end}Closed" in bounds and value > data(bounds[f"end{end}Closed"]):
        return False
    return not (f"end{end}Open" in bounds and value >= data(bounds[f"end{end}Open"]))


def first_of_columns(count, cells):
    seen, kept = {}, []
    for cell in cells:
        column = cell[:2]
        seen[column] = seen.get(column, 0) + 1
        if seen[column] <= count:
            kept.append(cell)
    return kept


def given(asked, key, cells):
    for kind, value in asked.items():
        return KINDS[kind](value, key, cells)
    return cells, []


def chain(value, key, cells):
    sunk = []
    for part in value.get("filters", []):
        cells, more = given(part, key, cells)
        sunk = in_order(sunk + more)
    return cells, sunk


def interleave(value, key, cells):
    out, sunk = [], []
    for part in value.get("filters", []):
        more, deeper = given(part, key, cells)
        out, sunk = in_order(out + more), in_order(sunk + deeper)
    return out, sunk


def condition(value, key, cells):
    predicate = given(value["predicateFilter"], key, cells)[0] if "predicateFilter" in value else cells
    branch = value.get("trueFilter" if predicate else "falseFilter")
    return (given(branch, key, cells)[0] if branch is not None else []), []


def kept(test):
    return lambda value, key, cells: ([c for c in cells if test(value, c)], [])


def is_in_column_range(value, cell):
    return cell[0] == value.get("familyName", "") and is_in(value, "Qualifier", "Qualifier", cell[1])


def is_in_times(value, cell):
    end = int(value.get("endTimestampMicros", 0))
    return int(value.get("startTimestampMicros", 0)) <= cell[2] and (end == 0 or cell[2] < end)


KINDS = {
    "passAllFilter": lambda value, key, cells: (cells, []),
    "blockAllFilter": lambda value, key, cells: ([], []),
    "sink": lambda value, key, cells: ([], cells),
    "chain": chain,
    "interleave": interleave,
    "condition": condition,
    "rowKeyRegexFilter": lambda value, key, cells: (cells if matches(data(value), key) else [], []),
    "familyNameRegexFilter": kept(lambda value, c: matches(value.encode(), c[0].encode())),
    "columnQualifierRegexFilter": kept(lambda value, c: matches(data(value), c[1])),
    "valueRegexFilter": kept(lambda value, c: matches(data(value), c[3])),
    "columnRangeFilter": kept(is_in_column_range),
    "valueRangeFilter": kept(lambda value, c: is_in(value, "Value", "Value", c[3])),
    "timestampRangeFilter": kept(is_in_times),
    "cellsPerRowOffsetFilter": lambda value, key, cells: (cells[value:], []),
    "cellsPerRowLimitFilter": lambda value, key, cells: (cells[:value], []),
    "cellsPerColumnLimitFilter": lambda value, key, cells: (first_of_columns(value, cells), []),
    "stripValueTransformer": lambda value, key, cells: ([c[:3] + (b"",) + c[LABEL:] for c in cells], []),
    "applyLabelTransformer": lambda value, key, cells: ([c[:LABEL] + (value,) for c in cells], []),
}

# ---- what a read is answered


def chunk(key, before, cell, is_last):
    members = {}
    if before is None:
        members["rowKey"] = spelled(key)
    if before is None or before[0] != cell[0]:
        members["familyName"] = cell[0]
    if before is None or before[:2] != cell[:2]:
        members["qualifier"] = spelled(cell[1])
    if cell[2]:
        members["timestampMicros"] = str(cell[2])
    if cell[LABEL]:
        members["labels"] = [cell[LABEL]]
    if cell[3]:
        members["value"] = spelled(cell[3])
    if is_last:
        members["commitRow"] = True
    return members


def answer(table, asked):
    chunks = []
    for key, row in sorted(TABLES[table][1].items()):
        cells = in_order([c + (None,) for c in row])
        out, sunk = given(asked, key, cells)
        cells = in_order(out + sunk)
        for at, cell in enumerate(cells):
            chunks.append(chunk(key, cells[at - 1] if at else None, cell, at + 1 == len(cells)))
    printed = [json.dumps({"response": {"chunks": chunks}}, separators=(",", ":"), sort_keys=True)] if chunks else []
    return printed + ['{"status":{}}']


def refusal(text, code=3):
    return [json.dumps({"status": {"code": code, "message": text}}, separators=(",", ":"))]


# ---- the filters

PASS, BLOCK, SINK, STRIP = ({it: True} for it in ("passAllFilter", "blockAllFilter", "sink", "stripValueTransformer"))


def chained(*parts):
    return {"chain": {"filters": list(parts)}}


def interleaved(*parts):
    return {"interleave": {"filters": list(parts)}}


def when(predicate=None, then=None, otherwise=None):
    parts = {"predicateFilter": predicate, "trueFilter": then, "falseFilter": otherwise}
    return {"condition": {name: part for name, part in parts.items() if part is not None}}


def key_is(text):
    return {"rowKeyRegexFilter": spelled(text)}


def family_is(text):
    return {"familyNameRegexFilter": text}


def qualifier_is(text):
    return {"columnQualifierRegexFilter": spelled(text)}


def value_is(text):
    return {"valueRegexFilter": spelled(text)}


def columns(family, **bounds):
    return {"columnRangeFilter": {"familyName": family, **{name: spelled(b) for name, b in bounds.items()}}}


def values(**bounds):
    return {"valueRangeFilter": {name: spelled(b) for name, b in bounds.items()}}


def times(start=None, end=None):
    bounds = {"startTimestampMicros": start, "endTimestampMicros": end}
    return {"timestampRangeFilter": {name: str(at) for name, at in bounds.items() if at is not None}}


def offset(count):
    return {"cellsPerRowOffsetFilter": count}


def limit(count):
    return {"cellsPerRowLimitFilter": count}


def of_column(count):
    return {"cellsPerColumnLimitFilter": count}


def label(text):
    return {"applyLabelTransformer": text}


def nested(count, inner):
    for _ in range(count):
        inner = chained(inner)
    return inner


# Each kind by itself, over each table that tells something of it.
ALONE = [
    {}, PASS, BLOCK, SINK, STRIP, label("yes"), chained(), interleaved(), when(),
    offset(0), offset(1), offset(2), offset(9), limit(0), limit(1), limit(2), limit(9),
    of_column(0), of_column(1), of_column(2), of_column(9),
    family_is("f"), family_is("A|B"), family_is(""), family_is("[^A]"), qualifier_is(b"q"), qualifier_is(b"[ab]"),
    qualifier_is(b""), value_is(b"."), value_is(b"[a-w]"), value_is(b""),
    times(), times(1000), times(1001), times(None, 2000), times(1000, 2000), times(2000, 1000), times(None, 0),
]

OVER_KEYS = [
    key_is(b"Row-1"), key_is(b"row-1"), key_is(b"row.1"), key_is(b"row\\.1"), key_is(b"row.*"), key_is(b"(?i)row-1"),
    key_is(b"row"), key_is(b"[Rr]ow.+"), key_is(b"a\\C*"), key_is(b"a\\C{2}"), key_is(b"a.*"), key_is(b""), key_is(b"a|row11"),
    family_is("fam-1"), family_is("fam.*"), family_is("fam"), qualifier_is(b""), qualifier_is(b"q\\C"), qualifier_is(b"q+"),
    value_is(b"a.b"), value_is(b"a\\Cb"), value_is(b"(?s)a.b"), value_is(b"\\C\\C"), value_is(b"a\\nb"),
    values(startValueClosed=b"ab"), values(startValueOpen=b"ab"), values(endValueClosed=b"ab"), values(endValueOpen=b"ab"),
    values(startValueClosed=b"a", endValueOpen=b"b"), values(endValueOpen=b""), values(endValueClosed=b""), values(),
    columns("f"), columns("fam-1"), columns("g"), columns("f", endQualifierClosed=b""), columns("f", endQualifierOpen=b""),
    columns("f", startQualifierOpen=b""), columns("fam-1", startQualifierClosed=b"q\x00", endQualifierOpen=b"qq"),
    columns("fam-1", startQualifierOpen=b"q\x00", endQualifierClosed=b"qq"), columns("fam-1", startQualifierOpen=b"qq"),
    {"valueRangeFilter": {"startValueClosed": "YQ"}}, {"columnRangeFilter": {}},
]

# Filters with parts: equal cells, sinks, labels, limits of rows and columns.
FOO_SUNK = chained(label("foo"), SINK)
WITH_PARTS = {
    "letters": [
        chained(family_is("A"), interleaved(PASS, FOO_SUNK), qualifier_is(b"B")),
        chained(family_is("A"), interleaved(PASS, FOO_SUNK), limit(1)),
        chained(interleaved(PASS, FOO_SUNK), BLOCK),
        chained(interleaved(FOO_SUNK, PASS), offset(2)),
        chained(SINK, PASS), chained(PASS, SINK), chained(SINK, SINK), interleaved(SINK, SINK), interleaved(SINK, PASS),
        chained(BLOCK, SINK), chained(limit(1), SINK, PASS), chained(interleaved(SINK, SINK), limit(1)),
        interleaved(family_is("A"), family_is("B")), interleaved(family_is("B"), family_is("A")),
        interleaved(chained(label("one")), chained(label("two"))), interleaved(chained(label("two")), chained(label("one"))),
        interleaved(label("a"), label("b"), label("c")), chained(interleaved(label("a"), label("b")), limit(3)),
        chained(interleaved(label("a"), label("b")), offset(3)), chained(interleaved(STRIP, PASS), value_is(b"")),
        when(BLOCK, PASS, label("none")), when(PASS, label("some"), BLOCK), when(value_is(b"z"), family_is("B"), family_is("A")),
        when(value_is(b"y"), family_is("B"), family_is("A")), when(None, label("row")), when(None, None, PASS), when(PASS), when(BLOCK),
        when(BLOCK, None, STRIP), when(when(BLOCK, None, PASS), label("in"), label("out")),
        when(when(PASS, BLOCK), label("in"), label("out")), chained(family_is("B"), when(family_is("A"), PASS, label("no"))),
        when(interleaved(), PASS, STRIP), when(chained(), PASS, STRIP), when({}, label("unset"), BLOCK), when(PASS, {}, BLOCK),
        when(limit(0), PASS, label("zero")), interleaved(when(BLOCK, PASS), when(PASS, limit(1))),
        chained(STRIP, value_is(b"w")), chained(value_is(b"w"), STRIP), chained(label("l"), STRIP), chained(STRIP, label("l")),
        chained(STRIP, values(endValueClosed=b"")), chained(offset(1), limit(1)), chained(limit(2), offset(1)),
        interleaved(limit(1), offset(2)), interleaved(offset(1), limit(2)), chained(family_is("A"), qualifier_is(b"B")),
        interleaved(family_is("A"), qualifier_is(b"B")), interleaved({}, {}), chained({}, {}, {}), interleaved(BLOCK, PASS, BLOCK),
        chained(interleaved(FOO_SUNK, chained(label("bar"), SINK), PASS), limit(1)),
        chained(chained(chained(SINK), PASS), interleaved()), nested(19, PASS), nested(18, SINK),
    ],
    "numbers": [
        interleaved(when(value_is(b"3"), label("yes")), PASS), interleaved(when(value_is(b"4"), label("yes")), PASS),
        interleaved(PASS, when(value_is(b"3"), label("yes"))), chained(interleaved(PASS, PASS), value_is(b"2")),
        chained(interleaved(PASS, PASS), limit(3)), chained(interleaved(PASS, PASS, PASS), of_column(2)),
        interleaved(qualifier_is(b"c"), qualifier_is(b"a")), interleaved(columns("f", startQualifierOpen=b"a"), columns("f", endQualifierOpen=b"c")),
        chained(columns("f", startQualifierClosed=b"b"), offset(1)), values(startValueOpen=b"1", endValueClosed=b"3"),
        interleaved(values(endValueOpen=b"2"), values(startValueClosed=b"2")), when(value_is(b"[1-3]"), limit(1), PASS),
    ],
    "versions": [
        chained(interleaved(PASS, PASS), of_column(1)), chained(interleaved(PASS, label("l")), of_column(1)),
        chained(interleaved(label("l"), PASS), of_column(1)), chained(interleaved(PASS, PASS), of_column(3)),
        chained(of_column(1), of_column(1)), interleaved(of_column(1), of_column(1)), chained(of_column(2), offset(1)),
        chained(offset(1), of_column(1)), chained(times(1000, 3000), of_column(1)), chained(of_column(1), times(None, 3000)),
        chained(family_is("f"), of_column(1), limit(1)), chained(limit(4), of_column(1)), chained(of_column(1), SINK, of_column(0)),
        interleaved(chained(of_column(1), label("new")), chained(offset(1), label("old"))), chained(of_column(1), STRIP),
        when(family_is("g"), of_column(1), label("small")), when(times(4000), family_is("g"), family_is("f")),
        interleaved(chained(times(None, 1000), label("zero")), times(5000)), chained(value_is(b""), label("empty")),
        chained(qualifier_is(b"p"), family_is("g"), of_column(1)), chained(interleaved(SINK, PASS), of_column(1)),
    ],
    "empty": [PASS, SINK, when(None, PASS, label("none")), interleaved(PASS, PASS), limit(1)],
}

LONG = "a" * 20480
REFUSED = [
    (nested(20, PASS), "filter too deep"), (nested(40, BLOCK), "filter too deep"),
    (nested(20, {"passAllFilter": False}), "filter too deep"),
    (interleaved(*[PASS] * 1024), "too many filters"), (interleaved(*[{"passAllFilter": False}] * 1024), "too many filters"),
    (value_is(LONG.encode() + b"a"), "filter too large"), (interleaved(value_is(LONG.encode()), label("a")), "filter too large"),
    (interleaved(value_is(LONG.encode()), values(startValueClosed=b"a")), "filter too large"),
    (interleaved(*[value_is(b"a.")] * 17), "too many patterns"), (interleaved(*[value_is(b"(")] * 17), "too many patterns"),
    (when(PASS, SINK), "sink under condition"), (when(SINK), "sink under condition"), (when(PASS, None, SINK), "sink under condition"),
    (when(chained(interleaved(SINK))), "sink under condition"), (when({"sink": False}), "sink under condition"),
    (interleaved(when(PASS, chained(SINK)), {"passAllFilter": False}), "sink under condition"),
    (interleaved({"passAllFilter": False}, when(PASS, SINK)), "flag not true"),
    ({"passAllFilter": False}, "flag not true"), ({"blockAllFilter": False}, "flag not true"), ({"sink": False}, "flag not true"),
    ({"stripValueTransformer": False}, "flag not true"), (label(""), "bad label"), (label("a" * 16), "bad label"),
    (label("A"), "bad label"), (label("a_b"), "bad label"), (label("é"), "bad label"),
    (chained(label("a"), label("b")), "two labels in a chain"), (chained(label("a"), interleaved(label("b"))), "two labels in a chain"),
    (chained(label("A"), label("b")), "two labels in a chain"), (interleaved(label("a"), chained(label("a"), when(label("c")))), "two labels in a chain"),
    (offset(-1), "negative count"), (limit(-1), "negative count"), (of_column(-2147483648), "negative count"),
    (times(-1), "bad time range"), (times(None, -1), "bad time range"), (value_is(b"("), "bad pattern"), (value_is(b"\xff"), "bad pattern"),
    (value_is(b"a)|(b"), "bad pattern"), (value_is(b"["), "bad pattern"), (key_is(b"*"), "bad pattern"), (qualifier_is(b"a{2,1}"), "bad pattern"),
    (family_is("f:q"), "bad pattern"), (family_is(":"), "bad pattern"), (value_is(b"(" * 300 + b")" * 300), "bad pattern"),
    (value_is(b"(a{1000}){1000}{1000}"), "pattern too large"), (chained(value_is(b"("), limit(-1)), "bad pattern"),
    (chained(limit(-1), value_is(b"(")), "negative count"),
]
# At the limits, and not past them.
ACCEPTED = [
    (interleaved(*[BLOCK] * 1023), "letters"), (value_is(LONG.encode()), "letters"), (chained(*[value_is(b"[w-z]")] * 16), "letters"),
    (label("a" * 15), "letters"), (label("a-1"), "letters"), (chained(interleaved(label("a"), label("b"))), "letters"),
    (of_column(2147483647), "letters"), (times(0, 9223372036854775807), "letters"), (chained(*[family_is("A")] * 17), "letters"),
]
# Members: unsupported, bad, or set twice.
UNREAD = [
    ({"rowSampleFilter": 0.5}, "unsupported rowSampleFilter", 12), ({"rowSampleFilter": 0}, "unsupported rowSampleFilter", 12),
    (chained(PASS, {"rowSampleFilter": 1}), "unsupported rowSampleFilter", 12), ({"passAllFilter": 1}, "bad field passAllFilter", 3),
    ({"passAllFilter": True, "sink": True}, "bad field sink", 3), ({"allFilter": True}, "bad field allFilter", 3),
    (offset(2147483648), "bad field cellsPerRowOffsetFilter", 3), ({"valueRegexFilter": "*"}, "bad field valueRegexFilter", 3),
    ({"valueRangeFilter": {"startValueOpen": "", "startValueClosed": ""}}, "bad field startValueOpen", 3),
    ({"chain": {"filters": [None]}}, "bad field filters", 3), ({"condition": {"trueFilter": []}}, "bad field trueFilter", 3),
    ({"timestampRangeFilter": {"startTimestampMicros": "x"}}, "bad field startTimestampMicros", 3),
]


def cases():
    """Each filter, with its table and its replies."""
    for table in ("letters", "numbers", "versions"):
        for asked in ALONE:
            yield table, asked, answer(table, asked)
    for asked in OVER_KEYS:
        yield "keys", asked, answer("keys", asked)
    for table, filters in WITH_PARTS.items():
        for asked in filters:
            yield table, asked, answer(table, asked)
    for asked, table in ACCEPTED:
        yield table, asked, answer(table, asked)
    for asked, text in REFUSED:
        yield "letters", asked, refusal(text)
    for asked, text, code in UNREAD:
        yield "letters", asked, refusal(text, code)


def preparations():
    for table, (families, rows) in TABLES.items():
        made = {"parent": INSTANCE, "tableId": table, "table": {"columnFamilies": {f: {} for f in families}}}
        shown = {"columnFamilies": {f: {} for f in families}, "granularity": "MILLIS", "name": table_name(table)}
        yield line("CreateTable", made), [json.dumps({"response": shown}, separators=(",", ":"), sort_keys=True), '{"status":{}}']
        for key, cells in rows.items():
            sets = [
                {"setCell": {"familyName": f, "columnQualifier": spelled(q), "timestampMicros": str(at), "value": spelled(v)}}
                for f, q, at, v in cells
            ]
            request = {"tableName": table_name(table), "rowKey": spelled(key), "mutations": sets}
            yield line("MutateRow", request), ['{"response":{}}', '{"status":{}}']


def pairs():
    """Lines, each with its replies: tables and rows, and a ReadRows for each filter."""
    yield from preparations()
    for table, asked, replies in cases():
        yield line("ReadRows", {"tableName": table_name(table), "filter": asked}), replies
