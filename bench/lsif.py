#!/usr/bin/env python3
"""Measures the entries of an index on dumps of 1,005, 10,005 and 100,005 lines.

The dumps are those of the test in tests_texts_top, by its text: a project, and documents of 50 lines each.
The program of reading.py reads each line as an entry, and what it prints has to be the dump. Each is read
three times.

Usage: bench/lsif.py [PROGRAM [PROGRAM]]     (bench/large_values.py --build builds the program)
"""
import os
import re

import measured
import reading
from measured import ROOT

DUMP = os.path.join(ROOT, "crates", "tests_texts_top", "src", "lsif", "dump.rt")


def constant(name):
    """The lines of the constant of the test."""
    with open(DUMP) as file:
        found = re.search(r'const %s: &str = r#"\n(.*?\n)"#;' % name, file.read(), re.S)
    return found.group(1)


def part(lines, first):
    """The lines with their ids, of which the first is given."""
    return re.sub("@([0-9]+)@", lambda found: str(first + int(found.group(1))), lines)


def dump(documents):
    document = constant("DOCUMENT")
    firsts = [4 + 50 * k for k in range(documents)]
    last = 4 + 50 * documents
    text = part(constant("HEAD"), 1) + "".join(part(document, first) for first in firsts)
    return text + (
        '{"id":%d,"inVs":[%s],"label":"contains","outV":2,"type":"edge"}\n'
        '{"data":2,"id":%d,"kind":"end","label":"$event","scope":"project","type":"vertex"}\n'
        % (last, ",".join(map(str, firsts)), last + 1))


def rows(_):
    for documents in (20, 200, 2_000):
        title = "an index of {:,} lines".format(50 * documents + 5)
        yield from reading.rows_of("lsif", "entry", title, lambda documents=documents: dump(documents))


if __name__ == "__main__":
    measured.main(rows, __doc__)
