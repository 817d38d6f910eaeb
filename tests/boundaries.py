"""Requests at the boundaries of definitions, where a slightly wrong one would answer otherwise, and their replies.

The replies are worked out from the documentation by small models: of names, of the cells of a row, of sets of
rows, and of filters. All tables are in an instance of their own. The time is 1970-01-01T00:00:05Z.
"""
from checks import (
    EMPTY, OK, answered, both, cell, changing, compact, dropping, from_column, making, refused, shown, spelled, statuses, versions,
)
from filters import (
    BLOCK, PASS, SINK, STRIP, chained, chunk, columns, data, family_is, given, in_order, interleaved, key_is, label, limit, nested, of_column,
    offset, times, value_is, values, when,
)
from reads import between, is_selected, line, responses_of
from updates import GREATEST, LEAST, MET, NOW, UNMET, append, check, increment, made, modify, rows

HERE = "projects/p/instances/boundaries"
LAST = 9223372036854775000


def named(table, instance=HERE):
    return f"{instance}/tables/{table}"


def create(table, families=None, **members):
    return "CreateTable", {"parent": HERE, "tableId": table, "table": {"columnFamilies": families or {}, **members}}


def table_of(name, families=None, retention=None, instance=HERE):
    """The answer that shows this table."""
    return answered({**shown(name, families, retention), "name": named(name, instance)})


def with_rules(**rules):
    return {family: {"gcRule": rule} if rule else {} for family, rule in rules.items()}


def mutate(table, key, *mutations):
    return "MutateRow", {"tableName": named(table), "rowKey": spelled(key), "mutations": list(mutations)}


def read(table, asked=None, **members):
    request = {"tableName": named(table), **members}
    return "ReadRows", request if asked is None else {**request, "filter": asked}


def filled(table, families, table_rows):
    """The table, made, and its rows of cells (family, qualifier, timestamp, value), written."""
    yield create(table, {family: {} for family in families}), table_of(table, {family: {} for family in families})
    entries = [{"rowKey": spelled(key), "mutations": [cell(*it) for it in cells]} for key, cells in table_rows.items()]
    yield ("MutateRows", {"tableName": named(table), "entries": entries}), statuses(*[None] * len(entries))


def answer(table_rows, asked=PASS):
    chunks = []
    for key, row in sorted(table_rows.items()):
        out, sunk = given(asked, key, in_order([c + (None,) for c in row]))
        cells = in_order(out + sunk)
        chunks += [chunk(key, cells[at - 1] if at else None, c, at + 1 == len(cells)) for at, c in enumerate(cells)]
    return responses_of(chunks) + [OK]


# ---- lines


def nested_lists(count):
    return '{"method":"GetTable","request":{"zoo":' + "[" * count + "]" * count + "}}"


def lines_that_are_no_requests():
    for text in ("\ufeff" + '{"method":"GetTable"}', '{"method":"GetTable","request":{"zoo":1e400}}', nested_lists(126)):
        yield text, refused(3, "not json")
    for text in ('{"method":"GetTable","request":{},"request":5}', '{"method":"GetTable","request":{},"Method":"GetTable"}'):
        yield text, refused(3, "bad envelope")
    yield " \t\r", []


def lines_that_are_requests():
    """Of equal members the last counts, also where one before it is at fault; names may be escaped; a line may end in CR."""
    yield '{"method":5,"method":"GetTable"}', refused(3, "bad name")
    yield '\t{"request":null,"\\u006dethod":"GetTable"}\r', refused(3, "bad name")
    yield nested_lists(125), refused(3, "bad field zoo")
    yield '{"method":"compactTable","request":{"zoo":1}}', refused(12, "unknown method")
    yield '{"method":"ListTables","request":{"parent":5,"parent":"%s"}}' % HERE, EMPTY
    yield '{"method":"ListTables","request":{"parent":"%s","\\u0001\\"\\u00e9":1}}' % HERE, ['{"status":{"code":3,"message":"bad field \\u0001\\"é"}}']


# ---- members


def members_of_a_read():
    """Unsupported before bad; the least name first; the second of a choice by its name, whatever its value."""
    table = named("none")
    for request, code, text in (
        ({"filter": chained({"rowSampleFilter": 0}, 5), "authorizedViewName": "", "reversed": 1}, 12, "unsupported rowSampleFilter"),
        ({"rows": {"rowRanges": {"x": {}}}, "materialized_view_name": {}}, 12, "unsupported materializedViewName"),
        ({"reversed": 0.0}, 12, "unsupported reversed"),
        ({"tableName": table, "table_name": table, "rows_limit": "x"}, 3, "bad field rowsLimit"),
        ({"rows": {"row_ranges": [{"endKeyOpen": "", "end_key_closed": "%"}]}}, 3, "bad field endKeyClosed"),
        ({"rows": {"rowKeys": [], "Zoo": None, "a": 1}}, 3, "bad field Zoo"),
        ({"filter": {"sink": True, "chain": {}, "passAllFilter": "x"}}, 3, "bad field passAllFilter"),
        ({"rowsLimit": "00000000000000000001"}, 3, "bad field rowsLimit"),
        ({"rowsLimit": "x", "tableName": "t"}, 3, "bad field rowsLimit"),
        ({"rowsLimit": "-9223372036854775808", "tableName": table, "filter": {"sink": None}}, 5, "table not found"),
    ):
        yield ("ReadRows", request), refused(code, text)


def members_that_count_as_absent():
    written = {b"r": [("f", b"q", 1000, b"v")]}
    yield from filled("absent", ["f"], written)
    for members in (
        {"reversed": [], "authorizedViewName": "0", "materializedViewName": 0, "rowsLimit": "-0"},
        {"appProfileId": None, "filter": None, "rows": None, "rowsLimit": None, "requestStatsView": None, "reversed": None},
        {"rows": {"rowKeys": [], "rowRanges": None}, "rowsLimit": "0000000000000000001", "requestStatsView": "1"},
        {"filter": {"sink": None, "passAllFilter": None}},
    ):
        yield read("absent", **members), answer(written)
    # in a choice: zero where the member is not supported, and null; but not false
    yield mutate("absent", b"r", {"addToCell": "0", "deleteFromRow": {}, "mergeToCell": []}), EMPTY
    yield read("absent"), [OK]
    yield mutate("absent", b"r", {"deleteFromFamily": None, "setCell": None}), refused(3, "mutation without kind")
    yield ("DropRowRange", {"name": named("absent"), "rowKeyPrefix": "", "deleteAllDataFromTable": False}), refused(3, "bad field rowKeyPrefix")
    yield ("DropRowRange", {"name": named("absent"), "rowKeyPrefix": None, "deleteAllDataFromTable": None}), refused(3, "no target")


# ---- names


def names_of_tables():
    good = ["_", "9", "T", "x" * 50]
    for name in good:
        yield create(name), table_of(name)
    for name in (".t", "x" * 51, "t:"):
        yield create(name), refused(3, "bad name")
    yield ("GetTable", {"name": named("T") + "/"}), refused(3, "bad name")
    longest, neighbour = "projects/" + "a:" * 50 + "/instances/-", HERE + "2"
    for instance in (longest, neighbour):
        yield ("CreateTable", {"parent": instance, "tableId": "t"}), table_of("t", instance=instance)
    for instance in ("projects//instances/i", "projects/" + "a" * 101 + "/instances/i", HERE + "/tables"):
        yield ("ListTables", {"parent": instance}), refused(3, "bad name")
    listed = {"parent": HERE, "view": "?", "pageSize": -2147483648, "pageToken": None}
    yield ("ListTables", listed), answered({"tables": [{"name": named(name)} for name in sorted(good + ["absent"])]})
    yield ("ListTables", {"parent": neighbour}), answered({"tables": [{"name": named("t", neighbour)}]})
    yield ("ListTables", {"parent": HERE, "view": 2147483648}), refused(3, "bad field view")
    yield ("UpdateTable", {"updateMask": "x"}), refused(3, "bad name")


# ---- families, rules and streams


def rules_of_families():
    full = "a-_.9Z" + "f" * 58
    rules = with_rules(**{full: {"maxAge": "315576000000s"}, "n": versions("2"), "o": {"maxNumVersions": None, "maxAge": "0.0010009s"}})
    shows = with_rules(**{full: {"maxAge": "315576000000s"}, "n": versions(2), "o": {"maxAge": "0.001s"}})
    given_too = {"gone": None, "p": {"gc_rule": {"max_num_versions": 2147483647}}, "q": {"gcRule": {"union": None}, "valueType": ""}}
    yield create("rules", {**rules, **given_too}), table_of("rules", {**shows, "p": {"gcRule": versions(2147483647)}, "q": {}})
    for rule in ({"union": {}}, {"maxAge": "0.0009999s"}, both(versions(1), {"maxAge": None})):
        yield create("u", with_rules(f=rule)), refused(3, "bad gc rule")
    yield create("u", with_rules(f={"maxAge": "315576000000.000000001s"})), refused(3, "bad field maxAge")
    yield create("u", {"f:": {"gcRule": versions(0)}}), refused(3, "bad family name")


def members_of_a_table():
    lawful = {"deletionProtection": False, "automatedBackupPolicy": [], "rowKeySchema": None, "granularity": "0", "name": "x"}
    yield create("members", {"f": {}}, changeStreamConfig={"retentionPeriod": "86400.000001s"}, **lawful), table_of("members", {"f": {}}, "86400.000001s")
    yield create("u", changeStreamConfig={"retentionPeriod": "86399.999999999s"}), refused(3, "bad retention")
    yield ("CreateTable", {"parent": HERE, "tableId": "split", "initialSplits": [{"key": "AA=="}, {}]}), table_of("split")
    yield read("split"), [OK]


def masks_of_streams():
    def update(mask, name="members", **table):
        return "UpdateTable", {"table": {"name": named(name), **table}, "updateMask": mask}

    lawful, unlawful = {"retentionPeriod": "604800s"}, {"retentionPeriod": "1s"}
    for mask in ("changeStreamConfig.retentionperiod", "changeStreamConfig,"):
        yield update(mask, changeStreamConfig=unlawful), refused(3, "bad update mask")
    yield update("", "none", changeStreamConfig=unlawful), refused(5, "table not found")
    yield update("change_stream_config.retentionPeriod"), table_of("members", {"f": {}})
    yield update("changeStreamConfig.retention_period", changeStreamConfig={}), refused(3, "bad retention")
    yield update("changeStreamConfig.retention_period", changeStreamConfig=lawful), table_of("members", {"f": {}}, "604800s")
    yield update("change_stream_config", columnFamilies={"a b": {}}, change_stream_config={"retention_period": "86400s"}), table_of("members", {"f": {}}, "86400s")
    yield mutate("members", b"r", cell("f", b"q", 0, b"")), EMPTY
    yield ("DeleteTable", {"name": named("members")}), EMPTY
    yield create("members", {"f": {}}), table_of("members", {"f": {}})
    yield read("members"), [OK]


def changes_of_families():
    def change(*modifications, table="members"):
        return "ModifyColumnFamilies", {"name": named(table), "modifications": list(modifications)}

    hundred = {f"f{number:02}": {} for number in range(100)}
    yield create("hundred", hundred), table_of("hundred", hundred)
    yield change(making("f00", versions(0)), table="hundred"), refused(6, "family exists")
    yield change(making("b", versions(0)), table="hundred"), refused(3, "bad gc rule")
    yield change(making("b"), dropping("f00"), table="hundred"), refused(9, "too many families")
    yield change(changing("g", versions(0))), refused(5, "family not found")
    yield change({**making("h"), "updateMask": ""}, dropping("h"), dropping("h")), refused(5, "family not found")
    yield change(making("h"), {}, {"id": "f", "drop": False}), refused(3, "modification without kind")
    yield change({"id": "f", "drop": False, "create": {}}), refused(3, "bad field drop")
    yield change(making("h"), dropping("h")), table_of("members", {"f": {}})
    yield mutate("members", b"r", cell("f", b"q", 1000, b"v")), EMPTY
    yield change(making("F"), {**changing("f", versions(1)), "drop": None}), table_of("members", {"F": {}, **with_rules(f=versions(1))})
    yield read("members"), answer({b"r": [("f", b"q", 1000, b"v")]})
    yield change(dropping("f"), making("f", versions(2))), table_of("members", {"F": {}, **with_rules(f=versions(2))})
    yield read("members"), [OK]


# ---- mutations


def after(cells, mutation):
    """The cells, by family, qualifier and timestamp, behind a mutation by the documentation of Mutation."""
    (kind, asked), = mutation.items()
    family, qualifier = asked.get("familyName"), asked.get("columnQualifier")
    if kind == "setCell":
        at = int(asked["timestampMicros"])
        return {**cells, (family, qualifier, NOW if at == -1 else at): asked["value"]}
    start, end = (int(asked.get("timeRange", {}).get(f"{bound}TimestampMicros", 0)) for bound in ("start", "end"))

    def is_deleted(at):
        return {
            "deleteFromRow": True, "deleteFromFamily": at[0] == family,
            "deleteFromColumn": at[:2] == (family, qualifier) and start <= at[2] and (end == 0 or at[2] < end),
        }[kind]

    return {at: value for at, value in cells.items() if not is_deleted(at)}


def from_times(start, end):
    return from_column("f", b"q", startTimestampMicros=start, endTimestampMicros=end)


LISTS = [
    # the later of equal cells counts; columns in byte order, times from the newest on
    [cell("f", b"q", 1000, b"a"), cell("f", b"q", 1000, b"b"), cell("f", b"q", 3000, b"c"), cell("f", b"q", 2000, b"d"), cell("f", b"", 0, b"e"), cell("f", b"q", LAST, b"z")],
    [from_times(3000, 3000), from_times(3000, 1000), from_times(1001, 2000), from_times(1, 1000), from_times(3001, LAST)],
    [from_times(1999, 2001), from_times(LAST, LAST + 1)],
    [from_times(3000, 0)],
    # what came before in the list, and not what comes behind
    [cell("f", b"q", 5000, b"x"), {"deleteFromRow": {}}, cell("g", b"n", 0, b"y"), cell("f", b"n", 0, b"w"), {"deleteFromFamily": {"familyName": "f"}}],
    [{"deleteFromFamily": {"familyName": "f"}}, from_column("f", b"n"), from_column("g", b"none"), from_times(0, 0)],
    # server time
    [cell("g", b"n", -1, b"1"), cell("g", b"n", -1, b"2"), from_column("g", b"n", startTimestampMicros=1, endTimestampMicros=NOW)],
    [from_column("g", b"n", endTimestampMicros=NOW + 1), {"deleteFromColumn": {"familyName": "g", "columnQualifier": spelled(b"n")}}],
]


def cells_after_mutations():
    yield create("mutated", {"f": {}, "g": {}}), table_of("mutated", {"f": {}, "g": {}})
    cells = {}
    for mutations in LISTS:
        for mutation in mutations:
            cells = after(cells, mutation)
        row = sorted(((*at, value) for at, value in cells.items()), key=lambda c: (c[0], c[1], -c[2]))
        shows = [(family, data(qualifier), at, data(value)) for family, qualifier, at, value in row]
        yield mutate("mutated", b"m", *mutations), EMPTY
        yield read("mutated"), rows(b"m", shows)


def refused_mutations():
    """The order of the checks of a mutation, and of mutations; nothing of a refused list is done."""
    bad_range = {"deleteFromColumn": {"familyName": "f", "timeRange": {"startTimestampMicros": "-1", "endTimestampMicros": "5"}}}
    good = cell("f", b"q", 1000, b"v")
    for mutations, code, text in (
        ([cell("x", b"q", -2, b"")], 5, "family not found"), ([cell("f", b"q" * 16385, -2, b"")], 3, "qualifier too long"),
        ([cell("f", b"q", -1000, b"")], 3, "bad timestamp"), ([cell("f", b"q", 2**63 - 1, b"")], 3, "bad timestamp"), ([good, bad_range, {}], 3, "bad time range"),
        ([good, {"deleteFromColumn": {"familyName": "f", "columnQualifier": "cR=="}}], 3, "bad field columnQualifier"),
    ):
        yield mutate("mutated", b"m", *mutations), refused(code, text)
    yield mutate("mutated", b"", {}), refused(3, "bad row key")
    yield read("mutated"), [OK]


def mutations_of_several_rows():
    one, two, three = (cell("f", b"q", 0, value) for value in (b"1", b"2", b"3"))
    entries = [(b"a", []), (b"", []), (b"a", [one]), (b"a", [two]), (b"a", [three, cell("x", b"q", 0, b"")]), (b"b", [one, {"deleteFromRow": {}}])]
    request = {"tableName": named("mutated"), "entries": [{"rowKey": spelled(key), "mutations": list(ms)} for key, ms in entries] + [{}]}
    yield ("MutateRows", request), statuses((3, "no mutations"), (3, "bad row key"), None, None, (5, "family not found"), None, (3, "bad row key"))
    yield read("mutated"), answer({b"a": [("f", b"q", 0, b"2")]})
    yield ("MutateRows", {"tableName": named("mutated"), "entries": None}), refused(3, "no entries")


def bytes_as_text():
    """The digits of the URL-safe alphabet, with padding and without, are bytes as those of the standard one."""
    asked = {"familyName": "f", "columnQualifier": "-_8", "timestampMicros": LAST, "value": "-_8="}
    yield mutate("mutated", b"a", {"deleteFromRow": {}}), EMPTY
    yield ("MutateRow", {"tableName": named("mutated"), "rowKey": "_w", "mutations": [{"setCell": asked}]}), EMPTY
    yield read("mutated"), answer({b"\xff": [("f", b"\xfb\xff", LAST, b"\xfb\xff")]})


# ---- changes that read


def additions_and_appends():
    table = {"tableName": named("added")}
    cells = [("f", b"q", LAST, b"a"), ("f", b"q", 1000, b"old"), ("g", b"e", LAST, b""), ("g", b"m", 0, LEAST), ("g", b"n", LAST, GREATEST), ("g", b"s", NOW, b"abc")]
    yield from filled("added", ["f", "g"], {b"w": cells})
    rules = [append("g", b"z", b"1"), append("f", b"q", b"b"), append("f", b"q", b"c"), increment("f", b"p", 0), increment("f", b"p", -1)]
    yield modify(b"w", *rules, **table), made(b"w", ("f", b"p", NOW, b"\xff" * 8), ("f", b"q", LAST, b"abc"), ("g", b"z", NOW, b"1"))
    yield modify(b"w", increment("g", b"n", -1), increment("g", b"n", "1"), **table), made(b"w", ("g", b"n", LAST, GREATEST))
    yield modify(b"w", increment("g", b"n", 1), increment("g", b"n", -1), **table), refused(9, "increment out of range")
    yield modify(b"w", increment("g", b"m", "-0"), append("g", b"e", b""), **table), made(b"w", ("g", b"e", LAST, b""), ("g", b"m", NOW, LEAST))
    yield modify(b"w", append("g", b"s", b"defgh"), increment("g", b"s", 0), **table), made(b"w", ("g", b"s", NOW, b"abcdefgh"))
    yield modify(b"w", increment("g", b"e", 1), append("x", b"q", b""), **table), refused(5, "family not found")
    yield modify(b"w", append("f", b"q", b"d"), increment("f", b"q", 1), increment("g", b"n", 1), **table), refused(9, "not eight bytes")
    changed = [
        ("f", b"p", NOW, b"\xff" * 8), ("f", b"q", LAST, b"abc"), ("f", b"q", 1000, b"old"), ("g", b"e", LAST, b""), ("g", b"m", NOW, LEAST), ("g", b"m", 0, LEAST),
        ("g", b"n", LAST, GREATEST), ("g", b"s", NOW, b"abcdefgh"), ("g", b"z", NOW, b"1"),
    ]
    yield read("added"), rows(b"w", changed)


def conditions_of_changes():
    """Cells that are sunk count, and cells that a branch left out would have given do not."""
    table = {"tableName": named("checked")}
    row = {b"w": [("f", b"q", LAST, b"a"), ("f", b"q", 0, b"")], b"x": [("f", b"q", 0, b"")]}
    yield from filled("checked", ["f"], row)
    for asked in (
        SINK, chained(SINK, BLOCK), when(BLOCK, None, PASS), offset(1), times(LAST), chained(STRIP, limit(1), value_is(b"")),
        when(PASS, None, PASS), when(), interleaved(), chained(BLOCK, SINK), key_is(b"x"), offset(2), times(LAST + 1),
    ):
        found = any(given(asked, b"w", in_order(row[b"w"])))
        lists = [[cell("f", b"q", 0, b"")], [{"deleteFromRow": {}}]]
        yield check(b"w", *(lists if found else lists[::-1]), asked, **table), MET if found else UNMET
    yield check(b"absent", lists[0], lists[1], when(BLOCK, None, PASS), **table), UNMET
    yield read("checked"), answer(row)


def prefixes_of_keys():
    def drop(**target):
        return "DropRowRange", {"name": named("dropped"), **target}

    kept = {key: [("f", b"q", 0, b"")] for key in (b"\x00", b"a", b"a\xff", b"a\xff\x00", b"a\xff\xff", b"b", b"\xff", b"\xff\x00", b"\xff\xff", b"\xff\xff\xff")}
    yield from filled("dropped", ["f"], kept)
    for prefix in (b"a\xff", b"\xff\xff", b"\x00" * 4097, b"\x00"):
        kept = {key: cells for key, cells in kept.items() if not key.startswith(prefix)}
        yield drop(rowKeyPrefix=spelled(prefix)), EMPTY
        yield read("dropped"), answer(kept)
    yield drop(rowKeyPrefix="YQ==", deleteAllDataFromTable=False), refused(3, "bad field rowKeyPrefix")
    yield drop(deleteAllDataFromTable=True), EMPTY
    yield read("dropped"), [OK]


# ---- reads


def orders_of_cells():
    """Families and qualifiers stand in byte order, the empty one first, and times from the newest; 64 chunks are a response."""
    families = ["-", ".", "A", "B9", "Z", "_", "a", "a-", "a.", "aa"]
    cells = [(family, qualifier, at, b"") for family in families for qualifier in (b"", b"\x00", b"q", b"\xff") for at in (2000, 0)]
    table_rows = {b"r": cells[::-1]}
    yield from filled("ordered", families[::-1], table_rows)
    for asked in (PASS, of_column(1), limit(64), limit(65)):
        yield read("ordered", asked), answer(table_rows, asked)


COPIES = {
    b"r": [("f", b"a", 2000, b"n"), ("f", b"a", 1000, b"o"), ("f", b"b", 0, b""), ("g", b"b", 1000, b"x")],
    b"s": [("g", b"a", 1000, b"")],
}
LABELLED_SINK = chained(label("s"), SINK)
OF_COPIES = [
    # what is given stands before what is sunk; what is sunk, by the order of the parts
    interleaved(SINK, STRIP), interleaved(STRIP, SINK), chained(interleaved(PASS, chained(STRIP, SINK)), SINK), chained(interleaved(PASS, SINK), STRIP, SINK),
    interleaved(chained(label("x"), SINK), chained(STRIP, SINK), SINK), interleaved(chained(label("x")), interleaved(STRIP, PASS), chained(label("y"))),
    # what is sunk is not limited, blocked or counted
    chained(interleaved(PASS, SINK), limit(1)), chained(interleaved(PASS, LABELLED_SINK), limit(0)), chained(interleaved(PASS, LABELLED_SINK), offset(9)),
    # copies count by themselves, and a label is no part of a column
    chained(interleaved(PASS, label("l")), of_column(3)), chained(interleaved(label("l"), PASS), of_column(2)), chained(interleaved(PASS, PASS), offset(4), limit(2)),
    # conditions
    interleaved(when(BLOCK, PASS, label("no")), SINK), chained(BLOCK, when(None, PASS, PASS)), when(of_column(0), PASS, when(key_is(b"r"))),
    # without parts, and without a kind
    chained(chained(), {}, interleaved()), interleaved(chained(), {}),
    # bounds
    times(999, 1000), times(1, 0), columns("f", startQualifierOpen=b"a", endQualifierOpen=b"a\x00"), values(startValueClosed=b"", endValueClosed=b"n"),
]


def filters_of_equal_cells():
    yield from filled("copies", ["f", "g"], COPIES)
    for asked in OF_COPIES:
        yield read("copies", asked), answer(COPIES, asked)
    yield read("copies", key_is(b"s"), rowsLimit="1"), answer(COPIES, key_is(b"s"))


def refused_filters():
    """What is about the whole filter comes first, in its order; the rest in the order of the parts."""
    long = "A" * 20481
    unlawful, flagged = label("A"), {"blockAllFilter": False}
    for asked, text in (
        (interleaved(nested(20, PASS), *[{}] * 1100), "filter too deep"), (interleaved(label(long), *[{}] * 1023), "too many filters"),
        (interleaved(label(long), *[value_is(b"a.")] * 17), "filter too large"), (interleaved(columns("f" * 20480), values(endValueOpen=b"x")), "filter too large"),
        (interleaved(*[family_is("f:")] * 17), "too many patterns"), (chained({"passAllFilter": False}, label("a"), label("b")), "two labels in a chain"),
        (when(value_is(b"("), flagged, limit(-1)), "bad pattern"), (when(PASS, flagged, limit(-1)), "flag not true"),
        (when(PASS, interleaved(chained({"sink": False}))), "sink under condition"), (when(unlawful, {"sink": False}), "bad label"),
        (chained(when(label("a"), PASS), label("b")), "two labels in a chain"),
    ):
        yield read("copies", asked), refused(3, text)
    yield read("copies", interleaved(*[BLOCK] * 1022, {})), answer(COPIES)
    yield read("copies", {"sink": False}, rowsLimit="-1"), refused(3, "negative rowsLimit")


def sets_of_rows():
    longest = b"b" * 4096
    table_rows = {key: [("f", b"q", 1000, b"v")] for key in (b"\x00", b"a", b"a\x00", longest[1:] + b"a", longest, longest[1:] + b"c", b"\xff" * 3)}
    yield from filled("keyed", ["f"], table_rows)
    for keys, ranges in (
        ([b"c" * 4097], []), ([], [between(None, longest, False, False)]), ([], [between(longest, None, True)]), ([], [between(longest + b"\x00", None)]),
        ([], [between(longest, longest + b"\x00", True)]), ([], [between(longest, longest + b"\x00")]), ([], [between(b"\x00", None, True)]),
        ([], [between(None, b"\x00", False, False)]),
    ):
        asked = {"rowKeys": [spelled(key) for key in keys], "rowRanges": [{name: spelled(at) for name, at in bounds.items()} for bounds in ranges]}
        yield read("keyed", STRIP, rows=asked), answer({key: row for key, row in table_rows.items() if is_selected(keys, ranges, key)}, STRIP)


# Patterns over these rows, and the keys of the rows that each is to give.
PATTERNED = {
    b"\xff": [("f", b"\xff", 1000, b"\xff\xfe")], b"a\n": [("f", b"q", 1000, "é".encode())], b"]C": [("f", b"q", 1000, b"\\C")],
}
OF_PATTERNS = [
    (value_is(rb"(?-u)\xff\xfe"), [b"\xff"]), (value_is(rb"."), [b"a\n"]), (value_is(rb"(?-u).."), [b"\xff", b"a\n", b"]C"]), (value_is(rb"\w"), [b"a\n"]),
    (value_is(rb"\\C"), [b"]C"]), (value_is(rb"\\\C"), [b"]C"]), (value_is(rb"\C"), []), (key_is(rb"[]\]C]*"), [b"]C"]),
    (key_is(rb"[^]\n]\C"), [b"a\n"]), (key_is(rb"(?m)a$"), []), (key_is(rb"^a\n$"), [b"a\n"]), (key_is(rb"]|]C"), [b"]C"]), (key_is(rb"\C{1,1}"), [b"\xff"]),
    (value_is(b"a" * 256 + b"."), []),
]


def patterns():
    yield from filled("patterned", ["f"], PATTERNED)
    for asked, keys in OF_PATTERNS:
        yield read("patterned", asked), answer({key: PATTERNED[key] for key in keys})
    for text in (rb"[\C]", rb"[[]\C]", b"(?x)a # b", b"\\"):
        yield read("patterned", value_is(text)), refused(3, "bad pattern")
    yield read("patterned", value_is(rb"\w" * 2000)), refused(3, "pattern too large")


def values_in_pieces():
    """A label stands on the first piece of a value alone, and a piece of 65,536 bytes ends its response."""
    value = b"x" * 65537
    yield from filled("pieces", ["f"], {b"r": [("f", b"a", 1000, value), ("f", b"b", 0, b"")]})
    first = {"rowKey": spelled(b"r"), "familyName": "f", "qualifier": spelled(b"a"), "timestampMicros": "1000", "labels": ["l"]}
    piece = {**first, "value": spelled(value[:65536]), "valueSize": 65537}
    rest = [{"value": spelled(b"x")}, {"qualifier": spelled(b"b"), "labels": ["l"], "commitRow": True}]
    yield read("pieces", label("l")), [compact({"response": {"chunks": chunks}}) for chunks in ([piece], rest)] + [OK]
    yield read("pieces", chained(STRIP, label("l"))), answered({"chunks": [first, rest[1]]})


def pairs():
    """Lines, each with its replies."""
    for part in (
        lines_that_are_no_requests, lines_that_are_requests, members_of_a_read, members_that_count_as_absent, names_of_tables, rules_of_families,
        members_of_a_table, masks_of_streams, changes_of_families, cells_after_mutations, refused_mutations, mutations_of_several_rows, bytes_as_text,
        additions_and_appends, conditions_of_changes, prefixes_of_keys, orders_of_cells, filters_of_equal_cells, refused_filters, sets_of_rows, patterns,
        values_in_pieces,
    ):
        for request, replies in part():
            yield request if isinstance(request, str) else line(*request), replies
