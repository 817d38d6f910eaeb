"""Conditional and read-modify-write requests, each check that a short line can meet, and their replies.

The replies are worked out by a reading of the public documentation of CheckAndMutateRowRequest and
ReadModifyWriteRowRequest that shares no code with the program. The time is 1970-01-01T00:00:05Z.
"""
import base64
import random

from checks import INSTANCE, OK, answered, refused, spelled
from reads import line

TABLE = f"{INSTANCE}/tables/updates"
NOW = 5000000
ONE = b"\0\0\0\0\0\0\0\1"
GREATEST = b"\x7f" + b"\xff" * 7
LEAST = b"\x80" + b"\0" * 7


# ---- requests


def check(key, yes=(), no=(), predicate=None, **members):
    request = {"tableName": TABLE, "rowKey": spelled(key), **members}
    if yes:
        request["trueMutations"] = list(yes)
    if no:
        request["falseMutations"] = list(no)
    if predicate is not None:
        request["predicateFilter"] = predicate
    return "CheckAndMutateRow", request


def modify(key, *rules, **members):
    return "ReadModifyWriteRow", {"tableName": TABLE, "rowKey": spelled(key), "rules": list(rules), **members}


def append(family, qualifier, value):
    return {"familyName": family, "columnQualifier": spelled(qualifier), "appendValue": spelled(value)}


def increment(family, qualifier, amount):
    return {"familyName": family, "columnQualifier": spelled(qualifier), "incrementAmount": str(amount)}


def cell(family, qualifier, at, value):
    return {"setCell": {"familyName": family, "columnQualifier": spelled(qualifier), "timestampMicros": str(at), "value": spelled(value)}}


def mutate(key, *mutations):
    return "MutateRow", {"tableName": TABLE, "rowKey": spelled(key), "mutations": list(mutations)}


def read(key):
    return "ReadRows", {"tableName": TABLE, "rows": {"rowKeys": [spelled(key)]}}


MET = answered({"predicateMatched": True})
UNMET = answered({})


# A row of the answer: cells as family, qualifier, time and value, in order, one a column.
def made(key, *cells):
    families = []
    for family, qualifier, at, value in cells:
        shown = {"timestampMicros": str(at)} if at else {}
        if value:
            shown["value"] = spelled(value)
        column = {"cells": [shown]}
        if qualifier:
            column["qualifier"] = spelled(qualifier)
        if not families or families[-1]["name"] != family:
            families.append({"name": family, "columns": []})
        families[-1]["columns"].append(column)
    return answered({"row": {"key": spelled(key), "families": families}})


def rows(key, cells):
    """The chunks of one row with these cells, or of none."""
    chunks, before = [], (None, None)
    for family, qualifier, at, value in cells:
        chunk = {"rowKey": spelled(key)} if not chunks else {}
        if family != before[0]:
            chunk["familyName"] = family
        if (family, qualifier) != before:
            chunk["qualifier"] = spelled(qualifier)
        if at:
            chunk["timestampMicros"] = str(at)
        if value:
            chunk["value"] = spelled(value)
        chunks.append(chunk)
        before = (family, qualifier)
    if not chunks:
        return [OK]
    chunks[-1]["commitRow"] = True
    return answered({"chunks": chunks})


SET = cell("f", b"n", 1000, b"0")
LONG = spelled(b"q" * 16385)

FIXED = [
    (("CreateTable", {"parent": INSTANCE, "tableId": "updates", "table": {"columnFamilies": {"f": {}, "g": {}}}}),
     answered({"columnFamilies": {"f": {}, "g": {}}, "granularity": "MILLIS", "name": TABLE})),
    # ReadModifyWriteRow: refused as it is read
    (modify(b"r", increment("f", b"q", 1), tableName="t"), refused(3, "bad name")),
    (modify(b"r", tableName=f"{INSTANCE}/tables/none"), refused(5, "table not found")),
    (modify(b"r", authorizedViewName="v"), refused(12, "unsupported authorizedViewName")),
    (modify(b"r", {**append("f", b"q", b"a"), "incrementAmount": "1"}), refused(3, "bad field incrementAmount")),
    (modify(b"r", {**append("f", b"q", b""), "incrementAmount": "0"}), refused(3, "bad field incrementAmount")),
    (modify(b"r", increment("f", b"q", 2**63)), refused(3, "bad field incrementAmount")),
    (modify(b"r", increment("f", b"q", 1), None), refused(3, "bad field rules")),
    (modify(b"r", rules={}), refused(3, "bad field rules")),
    (modify(b"r", {"family": "f"}), refused(3, "bad field family")),
    # and by its rules
    (modify(b"", increment("f", b"q", 1)), refused(3, "bad row key")),
    (modify(b"k" * 4097), refused(3, "bad row key")),
    (modify(b"r"), refused(3, "no rules")),
    (modify(b"r", {"familyName": "f", "columnQualifier": "cQ=="}), refused(3, "rule without kind")),
    (modify(b"r", {}), refused(3, "rule without kind")),
    (modify(b"r", {**append("h", b"q", b"a"), "appendValue": None}), refused(3, "rule without kind")),
    (modify(b"r", append("h", b"q", b"a")), refused(5, "family not found")),
    (modify(b"r", {"appendValue": "YQ=="}), refused(5, "family not found")),
    (modify(b"r", {**append("h", b"q", b"a"), "columnQualifier": LONG}), refused(5, "family not found")),
    (modify(b"r", {**append("f", b"q", b"a"), "columnQualifier": LONG}), refused(3, "qualifier too long")),
    (modify(b"r", append("f", b"q", b"a"), {**append("f", b"q", b"a"), "columnQualifier": LONG}, {}), refused(3, "qualifier too long")),
    (read(b"r"), [OK]),
    # an absent row
    (modify(b"r", increment("f", b"q", 1)), made(b"r", ("f", b"q", NOW, ONE))),
    (modify(b"r", increment("f", b"q", "-2")), made(b"r", ("f", b"q", NOW, b"\xff" * 8))),
    (modify(b"r", {**increment("f", b"q", 0), "incrementAmount": 3}), made(b"r", ("f", b"q", NOW, b"\0" * 7 + b"\2"))),
    (read(b"r"), rows(b"r", [("f", b"q", NOW, b"\0" * 7 + b"\2")])),
    (modify(b"s", append("f", b"q", b"a"), append("f", b"q", b"b")), made(b"s", ("f", b"q", NOW, b"ab"))),
    (modify(b"s", append("g", b"", b""), append("f", b"z", b""), append("f", b"q", b"c"), append("g", b"", b"d")),
     made(b"s", ("f", b"q", NOW, b"abc"), ("f", b"z", NOW, b""), ("g", b"", NOW, b"d"))),
    (read(b"s"), rows(b"s", [("f", b"q", NOW, b"abc"), ("f", b"z", NOW, b""), ("g", b"", NOW, b"d")])),
    # the latest cell, whose time never goes back
    (mutate(b"l", cell("f", b"l", 9000000, b"a"), cell("f", b"l", 1000, b"z"), cell("f", b"m", 1000, b"y")), UNMET),
    (modify(b"l", append("f", b"l", b"b"), append("f", b"m", b"b")), made(b"l", ("f", b"l", 9000000, b"ab"), ("f", b"m", NOW, b"yb"))),
    (read(b"l"), rows(b"l", [("f", b"l", 9000000, b"ab"), ("f", b"l", 1000, b"z"), ("f", b"m", NOW, b"yb"), ("f", b"m", 1000, b"y")])),
    # what a rule meets in the row
    (mutate(b"n", cell("f", b"a", 1000, b"abc"), cell("f", b"b", 1000, b""), cell("f", b"c", 1000, GREATEST), cell("f", b"d", 1000, LEAST), cell("f", b"e", 1000, b"\0" * 9)), UNMET),
    (modify(b"n", increment("f", b"a", 1)), refused(9, "not eight bytes")),
    (modify(b"n", increment("f", b"b", 1)), refused(9, "not eight bytes")),
    (modify(b"n", increment("f", b"e", 1)), refused(9, "not eight bytes")),
    (modify(b"n", append("f", b"q", b"a"), increment("f", b"a", 0)), refused(9, "not eight bytes")),
    (modify(b"n", append("f", b"q", b"a"), increment("f", b"q", 0)), refused(9, "not eight bytes")),
    (modify(b"n", increment("f", b"q", 0), append("f", b"q", b"a"), increment("f", b"q", 0)), refused(9, "not eight bytes")),
    (modify(b"n", increment("f", b"c", 1)), refused(9, "increment out of range")),
    (modify(b"n", increment("f", b"d", -1)), refused(9, "increment out of range")),
    (modify(b"n", increment("f", b"q", 2**63 - 1), increment("f", b"q", 1), increment("f", b"a", 1)), refused(9, "increment out of range")),
    (modify(b"n", increment("f", b"q", -2**63), increment("f", b"q", -1)), refused(9, "increment out of range")),
    (read(b"n"), rows(b"n", [("f", b"a", 1000, b"abc"), ("f", b"b", 1000, b""), ("f", b"c", 1000, GREATEST), ("f", b"d", 1000, LEAST), ("f", b"e", 1000, b"\0" * 9)])),
    (modify(b"n", increment("f", b"c", 0), increment("f", b"d", "0"), increment("f", b"q", -2**63), increment("f", b"q", 2**63 - 1)),
     made(b"n", ("f", b"c", NOW, GREATEST), ("f", b"d", NOW, LEAST), ("f", b"q", NOW, b"\xff" * 8))),
    (modify(b"n", increment("f", b"c", -2**63), increment("f", b"d", 2**63 - 1)), made(b"n", ("f", b"c", NOW, b"\xff" * 8), ("f", b"d", NOW, b"\xff" * 8))),
    # CheckAndMutateRow: refused as it is read
    (check(b"r", [SET], tableName="t"), refused(3, "bad name")),
    (check(b"r", tableName=f"{INSTANCE}/tables/none"), refused(5, "table not found")),
    (check(b"r", [SET], authorizedViewName="v"), refused(12, "unsupported authorizedViewName")),
    (check(b"r", [SET], predicate=[]), refused(3, "bad field predicateFilter")),
    (check(b"r", [SET], predicate={"rowSampleFilter": 0}), refused(12, "unsupported rowSampleFilter")),
    (check(b"r", [SET], [{"setCell": {"value": 1}}]), refused(3, "bad field value")),
    (check(b"r", [None]), refused(3, "bad field trueMutations")),
    (check(b"r", [], [{"addToCell": {}}]), refused(12, "unsupported addToCell")),
    # and by what it holds, in this order
    (check(b"", predicate={"sink": False}), refused(3, "bad row key")),
    (check(b"k" * 4097, [SET]), refused(3, "bad row key")),
    (check(b"r"), refused(3, "no mutations")),
    (check(b"r", predicate={"sink": False}), refused(3, "no mutations")),
    (check(b"r", [{}], predicate={"sink": False}), refused(3, "flag not true")),
    (check(b"r", [{}], predicate={"valueRegexFilter": spelled(b"(")}), refused(3, "bad pattern")),
    (check(b"r", [{}], predicate={"condition": {"predicateFilter": {"sink": True}}}), refused(3, "sink under condition")),
    (check(b"r", [{}], [cell("h", b"q", 0, b"")]), refused(3, "mutation without kind")),
    (check(b"r", [SET], [cell("h", b"q", 0, b"")]), refused(5, "family not found")),
    (check(b"r", [SET, cell("f", b"q", 1, b"")], [cell("h", b"q", 0, b"")]), refused(3, "bad timestamp")),
    (check(b"r", [], [cell("f", b"q", -2, b"")]), refused(3, "bad timestamp")),
    (check(b"none", [], [{"deleteFromColumn": {"familyName": "f", "timeRange": {"startTimestampMicros": "-1"}}}]), refused(3, "bad time range")),
    (read(b"none"), [OK]),
    # without a filter
    (check(b"none", [SET]), UNMET),
    (read(b"none"), [OK]),
    (check(b"none", [SET], [cell("f", b"no", 1000, b"1")]), UNMET),
    (read(b"none"), rows(b"none", [("f", b"no", 1000, b"1")])),
    (check(b"none", [{"deleteFromRow": {}}, cell("f", b"yes", -1, b"")], [SET]), MET),
    (read(b"none"), rows(b"none", [("f", b"yes", NOW, b"")])),
    (check(b"none", [], [SET]), MET),
    (check(b"none", [], [SET], predicate={}), MET),
    (read(b"none"), rows(b"none", [("f", b"yes", NOW, b"")])),
    (check(b"absent", [SET], predicate={}), UNMET),
    (check(b"absent", [SET], predicate={"passAllFilter": True}), UNMET),
    (check(b"absent", [SET], predicate={"sink": True}), UNMET),
    (read(b"absent"), [OK]),
    # the filter, and not the row
    (mutate(b"c", cell("f", b"q", 1000, b"v")), UNMET),
    (check(b"c", [SET], predicate={"valueRegexFilter": spelled(b"w")}), UNMET),
    (check(b"c", [], [cell("f", b"n", 1000, b"0")], predicate={"valueRegexFilter": spelled(b"w")}), UNMET),
    (read(b"c"), rows(b"c", [("f", b"n", 1000, b"0"), ("f", b"q", 1000, b"v")])),
    (check(b"c", [{"deleteFromFamily": {"familyName": "f"}}], [SET], predicate={"valueRegexFilter": spelled(b"v")}), MET),
    (read(b"c"), [OK]),
    (("CheckAndMutateRow", {"table_name": TABLE, "row_key": "Yw", "false_mutations": [SET], "predicate_filter": {"pass_all_filter": True}}), UNMET),
    (read(b"c"), rows(b"c", [("f", b"n", 1000, b"0")])),
    (("ReadModifyWriteRow", {"table_name": TABLE, "row_key": "Yw", "rules": [{"family_name": "f", "column_qualifier": "bg", "append_value": "MQ"}]}),
     made(b"c", ("f", b"n", NOW, b"01"))),
]

# ---- a model of rows, and requests at random

KEYS = [b"x1", b"x2", b"x3"]
FILTERS = [
    (None, lambda c: True), ({}, lambda c: True), ({"passAllFilter": True}, lambda c: True), ({"blockAllFilter": True}, lambda c: False),
    ({"familyNameRegexFilter": "g"}, lambda c: c[0] == "g"), ({"columnQualifierRegexFilter": spelled(b"a")}, lambda c: c[1] == b"a"),
    ({"timestampRangeFilter": {"startTimestampMicros": "3000"}}, lambda c: c[2] >= 3000), ({"cellsPerRowLimitFilter": 0}, lambda c: False),
    ({"valueRangeFilter": {"startValueClosed": spelled(b"m")}}, lambda c: c[3] >= b"m"), ({"stripValueTransformer": True}, lambda c: True),
    ({"interleave": {"filters": [{"blockAllFilter": True}, {"familyNameRegexFilter": "f"}]}}, lambda c: c[0] == "f"),
    ({"chain": {"filters": [{"familyNameRegexFilter": "g"}, {"sink": True}, {"blockAllFilter": True}]}}, lambda c: c[0] == "g"),
]


class Row:
    def __init__(self):
        self.cells = {}

    def listed(self):
        return [(f, q, -at, v) for (f, q, at), v in sorted(self.cells.items())]

    def mutate(self, mutation):
        if "setCell" in mutation:
            asked = mutation["setCell"]
            at = int(asked["timestampMicros"])
            self.cells[asked["familyName"], base64.b64decode(asked["columnQualifier"]), -(NOW if at < 0 else at)] = base64.b64decode(asked["value"])
        elif "deleteFromFamily" in mutation:
            self.cells = {k: v for k, v in self.cells.items() if k[0] != mutation["deleteFromFamily"]["familyName"]}
        else:
            self.cells = {}

    def modify(self, rules):
        """The new cells by their columns, or the refusal."""
        new = {}
        for rule in rules:
            family, qualifier = rule["familyName"], base64.b64decode(rule["columnQualifier"])
            latest = next(((at, v) for f, q, at, v in self.listed() if (f, q) == (family, qualifier)), None)
            at, value = new.get((family, qualifier)) or latest or (0, None)
            if "appendValue" in rule:
                value = (value or b"") + base64.b64decode(rule["appendValue"])
            else:
                if value is not None and len(value) != 8:
                    return refused(9, "not eight bytes")
                total = int.from_bytes(value or b"", "big", signed=True) + int(rule["incrementAmount"])
                if not -2**63 <= total < 2**63:
                    return refused(9, "increment out of range")
                value = total.to_bytes(8, "big", signed=True)
            new[family, qualifier] = (max(at, NOW), value)
        for (family, qualifier), (at, value) in new.items():
            self.cells[family, qualifier, -at] = value
        return [(f, q, at, v) for (f, q), (at, v) in sorted(new.items())]


def a_mutation(chance):
    kind = chance.random()
    if kind < 0.8:
        value = chance.choice([b"", b"a", b"z", ONE, GREATEST])
        return cell(chance.choice("fg"), chance.choice([b"a", b"b", b""]), chance.choice([0, 1000, 3000, -1, 7000000]), value)
    return {"deleteFromFamily": {"familyName": chance.choice("fg")}} if kind < 0.9 else {"deleteFromRow": {}}


def a_rule(chance):
    family, qualifier = chance.choice("fg"), chance.choice([b"a", b"b", b"c", b""])
    if chance.random() < 0.6:
        return increment(family, qualifier, chance.choice([0, 1, -1, 255, 2**63 - 1, -2**63]))
    return append(family, qualifier, chance.choice([b"", b"x", b"12345678"]))


def random_pairs(count, seed):
    chance = random.Random(seed)
    table = {key: Row() for key in KEYS}
    for _ in range(count):
        key = chance.choice(KEYS)
        row = table[key]
        if chance.random() < 0.5:
            asked, kept = chance.choice(FILTERS)
            lists = [[a_mutation(chance) for _ in range(chance.randrange(3))] for _ in range(2)]
            if not (lists[0] or lists[1]):
                continue
            met = any(kept(c) for c in row.listed())
            for mutation in lists[0 if met else 1]:
                row.mutate(mutation)
            yield line(*check(key, *lists, predicate=asked)), MET if met else UNMET
        else:
            rules = [a_rule(chance) for _ in range(chance.randrange(1, 5))]
            new = row.modify(rules)
            yield line(*modify(key, *rules)), new if isinstance(new[0], str) else made(key, *new)
        yield line(*read(key)), rows(key, row.listed())


def pairs():
    for request, replies in FIXED:
        yield line(*request), replies
    yield from random_pairs(120, 7)
