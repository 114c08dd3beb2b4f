#!/usr/bin/env python3
"""Counts the instructions of the sample server for one message more, by callgrind.

Two sessions of different lengths are served, and the difference of their counts is shared out among the
messages that the longer one has more, so that the start and the end fall out. callgrind counts each byte that
`rep stosb` or `rep movsb` goes over, so glibc is told to use neither.

Usage: bench/instructions.py [PROGRAM [PROGRAM]] [--only ROW ..]     (valgrind has to be on the path)
"""
import os
import re
import subprocess

import measured
import sessions
from measured import Figure, Row

TUNABLES = "glibc.cpu.x86_rep_stosb_threshold=1000000000:glibc.cpu.x86_rep_movsb_threshold=1000000000"
LENGTHS = 1000, 5000
FEW = 20, 100
# Of each message its name, what it is, and how many are sent.
MESSAGES = {
    "initialize": ("refused `initialize`", sessions.refused, LENGTHS),
    "note": ("unregistered notification", sessions.note, LENGTHS),
    "echo": ("`echo`", sessions.echo, LENGTHS),
    "unknown": ("unknown method", sessions.unknown, LENGTHS),
    "response": ("response, null result", sessions.response, LENGTHS),
    "open": ("`didOpen` of 10 KB, escapes", sessions.escaped, FEW),
    "openplain": ("`didOpen` of 10 KB, no escapes", sessions.plain, FEW),
    "hover": ("`hover`, which is unknown", sessions.hover, LENGTHS),
    "change": ("`didChange` of one letter", sessions.change, LENGTHS),
}


def counted(command, path):
    """The instructions of one run on the file's bytes."""
    words = ["valgrind", "--tool=callgrind", "--callgrind-out-file=/dev/null", *command]
    with open(path, "rb") as given:
        done = subprocess.run(words, stdin=given, stdout=subprocess.DEVNULL, stderr=subprocess.PIPE, text=True,
                              env=dict(os.environ, GLIBC_TUNABLES=TUNABLES))
    found = re.search(r"Collected : (\d+)", done.stderr)
    if done.returncode != 0 or not found:
        measured.failed(words, "ended with status %d: %s" % (done.returncode, done.stderr))
    return int(found[1])


def row(name):
    label, body, lengths = MESSAGES[name]
    few, many = lengths
    inputs = [sessions.session(body, length, sessions.SHUTDOWN, sessions.EXIT) for length in lengths]

    def run(program, short, long):
        return [(counted([program], long) - counted([program], short)) / (many - few)]
    return Row("instructions/" + name, "lsp_sample", [Figure(label, "instructions")], run, inputs, 1, "valgrind")


def rows(_):
    return map(row, MESSAGES)


if __name__ == "__main__":
    measured.main(rows, __doc__)
