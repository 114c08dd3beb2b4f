#!/usr/bin/env python3
"""Measures the types on large values: a completion list, a tree of symbols, and tokens.

The program of reading.py reads each, and what it prints has to be the input. Each is read three times.

Usage: bench/large_values.py [PROGRAM [PROGRAM]]
       bench/large_values.py --build     (`rt` has to be on the path)
"""
import json
import sys

import measured
import reading


def line(value):
    return json.dumps(value, separators=(",", ":"), sort_keys=True) + "\n"


def span(first, last):
    return {"start": {"line": first, "character": 4}, "end": {"line": last, "character": 9}}


def completion(count):
    return line({"isIncomplete": False, "items": [
        {"label": "method_%d" % k, "kind": 2, "detail": "fn(&self) -> u32", "sortText": "%08d" % k,
         "filterText": "method_%d" % k, "insertTextFormat": 2,
         "documentation": {"kind": "markdown", "value": "The method %d of the type." % k},
         "textEdit": {"newText": "method_%d()" % k, "range": span(k, k)}} for k in range(count)]})


def symbol(first, depth):
    """A symbol with ten inside it, and so on: of a depth of 5, 11,111 symbols."""
    it = {"name": "symbol_%d" % first, "kind": 5, "range": span(first, first + depth),
          "selectionRange": span(first, first)}
    if depth > 1:
        it["children"] = [symbol(first + k, depth - 1) for k in range(10)]
    return it


def symbols(count):
    return line([symbol(k, 5) for k in range(count // 11_111)])


def tokens(count):
    return line({"data": [1, 4, 6, 8, 2049] * count, "resultId": "1"})


KINDS = {
    "completion": ("a completion list of {:,} items", completion, (2_500, 10_000, 40_000)),
    "symbols": ("a tree of {:,} symbols", symbols, (33_333, 99_999, 299_997)),
    "tokens": ("{:,} semantic tokens", tokens, (125_000, 500_000, 2_000_000)),
}


def rows(_):
    for kind, (title, made, counts) in KINDS.items():
        for count in counts:
            yield from reading.rows_of("values", kind, title.format(count), lambda made=made, count=count: made(count))


if __name__ == "__main__":
    if sys.argv[1:] == ["--build"]:
        reading.build()
    else:
        measured.main(rows, __doc__)
