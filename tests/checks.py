"""Requests about tables and rows that are accepted or refused, each check that a short line can meet, and their replies."""
import base64
import json

INSTANCE = "projects/p/instances/i"
T = f"{INSTANCE}/tables/t"
OK = '{"status":{}}'


def spelled(data):
    return base64.b64encode(data).decode()


def compact(value):
    return json.dumps(value, separators=(",", ":"), sort_keys=True)


def refused(code, text):
    return [compact({"status": {"code": code, "message": text}})]


def answered(response):
    return [compact({"response": response}), OK]


EMPTY = answered({})


def shown(name, families, retention=None):
    table = {"granularity": "MILLIS", "name": f"{INSTANCE}/tables/{name}"}
    if families:
        table["columnFamilies"] = families
    if retention:
        table["changeStreamConfig"] = {"retentionPeriod": retention}
    return table


# ---- requests


def create(name, families=None, **members):
    table = {"columnFamilies": families or {}, **members}
    return "CreateTable", {"parent": INSTANCE, "tableId": name, "table": table}


def get(name="t"):
    return "GetTable", {"name": f"{INSTANCE}/tables/{name}"}


def update(mask, **members):
    return "UpdateTable", {"table": {"name": T, **members}, "updateMask": mask}


def modify(*modifications):
    return "ModifyColumnFamilies", {"name": T, "modifications": list(modifications)}


def making(family, rule=None):
    return {"id": family, "create": {"gcRule": rule} if rule else {}}


def changing(family, rule=None):
    return {"id": family, "update": {"gcRule": rule} if rule else {}}


def dropping(family):
    return {"id": family, "drop": True}


def drop_rows(**target):
    return "DropRowRange", {"name": T, **target}


def cell(family, qualifier, at, value):
    return {"setCell": {"familyName": family, "columnQualifier": spelled(qualifier), "timestampMicros": str(at), "value": spelled(value)}}


def from_column(family, qualifier, **times):
    return {"deleteFromColumn": {"familyName": family, "columnQualifier": spelled(qualifier), "timeRange": {n: str(t) for n, t in times.items()}}}


def mutate(key, *mutations):
    return "MutateRow", {"tableName": T, "rowKey": spelled(key), "mutations": list(mutations)}


def mutate_rows(*entries):
    return "MutateRows", {"tableName": T, "entries": [{"rowKey": spelled(key), "mutations": list(ms)} for key, ms in entries]}


READ = ("ReadRows", {"tableName": T})


def statuses(*codes):
    entries = []
    for at, status in enumerate(codes):
        entry = {"status": {"code": status[0], "message": status[1]} if status else {}}
        if at:
            entry["index"] = str(at)
        entries.append(entry)
    return answered({"entries": entries})


# The one cell of a row.
def row(key, family, qualifier, at, value):
    members = {"rowKey": spelled(key), "familyName": family, "qualifier": spelled(qualifier), "value": spelled(value), "commitRow": True}
    return {**members, "timestampMicros": str(at)} if at else members


def rows(*chunks):
    return answered({"chunks": list(chunks)})


# ---- rules


def versions(count):
    return {"maxNumVersions": count}


def union(*rules):
    return {"union": {"rules": list(rules)}}


def both(*rules):
    return {"intersection": {"rules": list(rules)}}


def deep(levels):
    rule = versions(1)
    for _ in range(levels - 1):
        rule = union(rule)
    return rule


LAWFUL = {
    "age": {"maxAge": "0.001s"}, "deep": deep(8), "long": {"maxAge": "1.5s"}, "many": union(*[versions(1)] * 31), "none": None,
    "one": versions(1), "two": both(versions(2), {"maxAge": "86400s"}),
}
# A fraction of a second is printed by three or six digits.
PRINTED = {**LAWFUL, "long": {"maxAge": "1.500s"}}
BAD_RULES = [
    versions(0), versions(-1), {"maxAge": "0s"}, {"maxAge": "0.000999s"}, {"maxAge": "-1s"}, union(), both(), union({}),
    deep(9), union(*[versions(1)] * 32), both(versions(1), union(versions(0))),
]

CASES = [
    # CreateTable
    (create("t", {"f": {}}), answered(shown("t", {"f": {}}))),
    (create("t", {"f": {}}), refused(6, "table exists")),
    (create("t", {"a b": {}}), refused(6, "table exists")),
    (create("u", {"a b": {}}), refused(3, "bad family name")),
    (create("u", {"": {}}), refused(3, "bad family name")),
    (create("u", {"a" * 65: {}}), refused(3, "bad family name")),
    (create("u", {"a": {"gcRule": versions(0)}, "b:": {}}), refused(3, "bad gc rule")),
    (create("u", {"a:": {}, "b": {"gcRule": versions(0)}}), refused(3, "bad family name")),
    *[(create("u", {"f": {"gcRule": rule}}), refused(3, "bad gc rule")) for rule in BAD_RULES],
    (create("u", {f"f{i}": {} for i in range(101)}), refused(9, "too many families")),
    (create("u", {**{f"f{i}": {} for i in range(100)}, "z": {"gcRule": versions(0)}}), refused(3, "bad gc rule")),
    (create("u", {}, changeStreamConfig={}), refused(3, "bad retention")),
    (create("u", {}, changeStreamConfig={"retentionPeriod": "86399.999999s"}), refused(3, "bad retention")),
    (create("u", {}, changeStreamConfig={"retentionPeriod": "604800.000001s"}), refused(3, "bad retention")),
    (create("u", {f"f{i}": {} for i in range(101)}, changeStreamConfig={}), refused(9, "too many families")),
    (create("lawful", {n: {"gcRule": r} if r else {} for n, r in LAWFUL.items()}, changeStreamConfig={"retentionPeriod": "86400s"}),
     answered(shown("lawful", {n: {"gcRule": r} if r else {} for n, r in PRINTED.items()}, "86400s"))),
    (create("empty_rule", {"f": {"gcRule": {}}}, granularity="MILLIS"), answered(shown("empty_rule", {"f": {}}))),
    (create("wide", {f"f{i}": {} for i in range(100)}), answered(shown("wide", {f"f{i}": {} for i in range(100)}))),
    (("CreateTable", {"parent": INSTANCE, "tableId": "-t"}), refused(3, "bad name")),
    (("CreateTable", {"parent": "projects/p", "tableId": "v"}), refused(3, "bad name")),
    # GetTable, ListTables, DeleteTable
    (get(), answered(shown("t", {"f": {}}))),
    (get("u"), refused(5, "table not found")),
    (("GetTable", {}), refused(3, "bad name")),
    (("ListTables", {"parent": INSTANCE}), answered({"tables": [{"name": f"{INSTANCE}/tables/{n}"} for n in ("empty_rule", "lawful", "t", "wide")]})),
    (("ListTables", {"parent": INSTANCE, "pageToken": "x"}), refused(3, "bad page token")),
    (("ListTables", {"parent": "projects/p/instances/j"}), EMPTY),
    (("DeleteTable", {"name": f"{INSTANCE}/tables/wide"}), EMPTY),
    (("DeleteTable", {"name": f"{INSTANCE}/tables/wide"}), refused(5, "table not found")),
    (("DeleteTable", {"name": f"{INSTANCE}/tables/empty_rule"}), EMPTY),
    # UpdateTable
    (update("columnFamilies", changeStreamConfig={"retentionPeriod": "86400s"}), refused(3, "bad update mask")),
    (update(""), refused(3, "bad update mask")),
    (update("changeStreamConfig,changeStreamConfig"), refused(3, "bad update mask")),
    (update("changeStreamConfig", changeStreamConfig={"retentionPeriod": "1s"}), refused(3, "bad retention")),
    (update("changeStreamConfig", changeStreamConfig={}), refused(3, "bad retention")),
    (update("change_stream_config.retention_period", changeStreamConfig={"retentionPeriod": "604800.0000009s"}), answered(shown("t", {"f": {}}, "604800s"))),
    (get(), answered(shown("t", {"f": {}}, "604800s"))),
    (update("changeStreamConfig.retentionPeriod"), answered(shown("t", {"f": {}}))),
    # MutateRow
    (mutate(b"", cell("f", b"q", 1000, b"v")), refused(3, "bad row key")),
    (mutate(b"k" * 4097, cell("f", b"q", 1000, b"v")), refused(3, "bad row key")),
    (mutate(b"r"), refused(3, "no mutations")),
    (mutate(b"r", {}), refused(3, "mutation without kind")),
    (mutate(b"r", cell("g", b"q", 1000, b"v")), refused(5, "family not found")),
    (mutate(b"r", cell("f", b"q" * 16385, 1000, b"v")), refused(3, "qualifier too long")),
    (mutate(b"r", cell("f", b"q", 1500, b"v")), refused(3, "bad timestamp")),
    (mutate(b"r", cell("f", b"q", -2, b"v")), refused(3, "bad timestamp")),
    (mutate(b"r", from_column("f", b"q", startTimestampMicros=-1)), refused(3, "bad time range")),
    (mutate(b"r", from_column("f", b"q", endTimestampMicros=-1)), refused(3, "bad time range")),
    (mutate(b"r", from_column("f", b"q" * 16385)), refused(3, "qualifier too long")),
    (mutate(b"r", {"deleteFromFamily": {"familyName": "g"}}), refused(5, "family not found")),
    (mutate(b"r", cell("f", b"q", 1000, b"v"), cell("g", b"q", 1000, b"v")), refused(5, "family not found")),
    (("MutateRow", {"tableName": f"{INSTANCE}/tables/u", "rowKey": "", "mutations": []}), refused(5, "table not found")),
    (READ, [OK]),
    (mutate(b"r", cell("f", b"q", 1000, b"a"), cell("f", b"q", 2000, b"b"), cell("f", b"q", 3000, b"c")), EMPTY),
    (mutate(b"r", from_column("f", b"q", startTimestampMicros=1000, endTimestampMicros=2000)), EMPTY),
    (mutate(b"r", from_column("f", b"q", startTimestampMicros=3000)), EMPTY),
    (READ, rows(row(b"r", "f", b"q", 2000, b"b"))),
    (mutate(b"r", cell("f", b"s", -1, b"now"), {"deleteFromRow": {}}, cell("f", b"t", -1, b"late")), EMPTY),
    (READ, rows(row(b"r", "f", b"t", 5000000, b"late"))),
    (mutate(b"r", {"deleteFromFamily": {"familyName": "f"}}), EMPTY),
    (READ, [OK]),
    # MutateRows
    (mutate_rows(), refused(3, "no entries")),
    (("MutateRows", {"tableName": T, "appProfileId": "default", "entries": [
        {"rowKey": "cg==", "mutations": [cell("f", b"q", 1000, b"v")]},
        {"rowKey": "cw==", "mutations": [cell("g", b"q", 1000, b"v")]},
        {"rowKey": "dA==", "mutations": [cell("f", b"q", 1000, b"w")]}]}), statuses(None, (5, "family not found"), None)),
    (READ, rows(row(b"r", "f", b"q", 1000, b"v"), row(b"t", "f", b"q", 1000, b"w"))),
    (mutate_rows((b"", [{"deleteFromRow": {}}]), (b"r", []), (b"r", [{}])), statuses((3, "bad row key"), (3, "no mutations"), (3, "mutation without kind"))),
    (mutate_rows((b"r", [{"deleteFromRow": {}}]), (b"r", [cell("f", b"q", 1000, b"x")]), (b"t", [{"deleteFromRow": {}}])), statuses(None, None, None)),
    (READ, rows(row(b"r", "f", b"q", 1000, b"x"))),
    # ModifyColumnFamilies
    (modify(), refused(3, "no modifications")),
    (("ModifyColumnFamilies", {"name": f"{INSTANCE}/tables/u"}), refused(5, "table not found")),
    (modify({"id": "g"}), refused(3, "modification without kind")),
    (modify({"id": "f", "drop": False}), refused(3, "flag not true")),
    (modify({"id": "g:", "drop": False}), refused(3, "flag not true")),
    (modify(making("g:")), refused(3, "bad family name")),
    (modify(changing("")), refused(3, "bad family name")),
    (modify(dropping("a b")), refused(3, "bad family name")),
    (modify(making("f")), refused(6, "family exists")),
    (modify(changing("g")), refused(5, "family not found")),
    (modify(dropping("h")), refused(5, "family not found")),
    (modify(making("g"), dropping("h")), refused(5, "family not found")),
    (get(), answered(shown("t", {"f": {}}))),
    (modify(making("g"), making("g")), refused(6, "family exists")),
    (modify(dropping("f"), changing("f")), refused(5, "family not found")),
    (modify(making("g", versions(0))), refused(3, "bad gc rule")),
    (modify(changing("f", {"maxAge": "0s"})), refused(3, "bad gc rule")),
    (modify(*[making(f"g{i}") for i in range(100)]), refused(9, "too many families")),
    (modify(*[making(f"g{i}") for i in range(99)], dropping("f"), making("z", versions(0))), refused(3, "bad gc rule")),
    (READ, rows(row(b"r", "f", b"q", 1000, b"x"))),
    (modify(making("g", versions(3)), making("b"), changing("f", {"maxAge": "3600s"})),
     answered(shown("t", {"b": {}, "f": {"gcRule": {"maxAge": "3600s"}}, "g": {"gcRule": versions(3)}}))),
    (mutate_rows((b"a", [cell("b", b"q", 1000, b"1"), cell("g", b"q", 1000, b"2")]), (b"c", [cell("g", b"q", 1000, b"3")]), (b"d", [cell("b", b"q", 0, b"")])),
     statuses(None, None, None)),
    (modify(dropping("g"), making("g"), dropping("f"), changing("b")), answered(shown("t", {"b": {}, "g": {}}))),
    (READ, rows(row(b"a", "b", b"q", 1000, b"1"), {"rowKey": "ZA==", "familyName": "b", "qualifier": "cQ==", "commitRow": True})),
    (modify(*[making(f"g{i}") for i in range(98)]), answered(shown("t", {"b": {}, "g": {}, **{f"g{i}": {} for i in range(98)}}))),
    (modify(making("y")), refused(9, "too many families")),
    (modify(dropping("b"), making("y")), answered(shown("t", {"g": {}, "y": {}, **{f"g{i}": {} for i in range(98)}}))),
    (READ, [OK]),
    (modify(*[dropping(f"g{i}") for i in range(98)], dropping("g"), making("f")), answered(shown("t", {"f": {}, "y": {}}))),
    # DropRowRange
    (mutate_rows(*[(key, [cell("f", b"q", 1000, b"v")]) for key in (b"p1", b"p2", b"q", b"p\xff", b"p\xff\xff", b"\xff", b"\xff\x00")]), statuses(*[None] * 7)),
    (drop_rows(), refused(3, "no target")),
    (drop_rows(rowKeyPrefix=""), refused(3, "no target")),
    (drop_rows(rowKeyPrefix="cP8="), EMPTY),
    (READ, rows(*[row(key, "f", b"q", 1000, b"v") for key in (b"p1", b"p2", b"q", b"\xff", b"\xff\x00")])),
    (drop_rows(rowKeyPrefix="/w=="), EMPTY),
    (drop_rows(rowKeyPrefix="cA=="), EMPTY),
    (READ, rows(row(b"q", "f", b"q", 1000, b"v"))),
    (drop_rows(deleteAllDataFromTable=False), EMPTY),
    (READ, rows(row(b"q", "f", b"q", 1000, b"v"))),
    (("DropRowRange", {"name": f"{INSTANCE}/tables/u", "deleteAllDataFromTable": True}), refused(5, "table not found")),
    (drop_rows(deleteAllDataFromTable=True), EMPTY),
    (READ, [OK]),
    # Reads of what is not there, and methods that are not served
    (("ReadRows", {"tableName": f"{INSTANCE}/tables/u"}), refused(5, "table not found")),
    (("ReadRows", {"tableName": "t"}), refused(3, "bad name")),
    (("CompactTable", {"name": T}), refused(12, "not built")),
    (("DeleteTable", {"name": T}), EMPTY),
    (("DeleteTable", {"name": f"{INSTANCE}/tables/lawful"}), EMPTY),
]


def pairs():
    """Lines, each with its replies."""
    for (method, request), replies in CASES:
        yield json.dumps({"method": method, "request": request}, separators=(",", ":")), replies
