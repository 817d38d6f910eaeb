#!/usr/bin/env python3
"""A table of requests and their replies.

usage: answers.py lines | replies

The program `bt_answers` is run on the lines (crates/bt_answers/stdin) and has to print the replies
(crates/bt_answers/stdout), over tables that are empty at the start and at 1970-01-01T00:00:05Z.
"""
import sys

import boundaries
import checks
import filters
import reads
import updates


def main(words):
    if words not in (["lines"], ["replies"]):
        sys.exit(__doc__)
    sys.stdout.reconfigure(encoding="utf-8")
    for pairs in (checks.pairs(), filters.pairs(), reads.pairs(), updates.pairs(), boundaries.pairs()):
        for line, replies in pairs:
            for text in [line] if words == ["lines"] else replies:
                print(text)


main(sys.argv[1:])
