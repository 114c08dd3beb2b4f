#!/usr/bin/env python3
"""Measures floods from a file, to the sample server: the processor's time for all of it, without a pipe.

Usage: bench/flood.py [PROGRAM [PROGRAM]] [SIZE ..]     (default: 100000)
"""
import measured
import sessions
from measured import Figure, Row

FLOODS = {
    "unknown": ("requests of an unknown method", sessions.unknown),
    "note": ("unregistered notifications", sessions.note),
}


def run(program, path):
    return [measured.spent([program], path)[0] * 1e3]


def rows(sizes):
    for size in sizes.or_else(100_000):
        for name, (label, body) in FLOODS.items():
            figure = Figure("{:,} {} from a file".format(size, label), "ms")
            inputs = [sessions.session(body, size, sessions.SHUTDOWN, sessions.EXIT)]
            yield Row("flood/" + name, "lsp_sample", [figure], run, inputs)


if __name__ == "__main__":
    measured.main(rows, __doc__)
