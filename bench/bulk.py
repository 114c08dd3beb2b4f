#!/usr/bin/env python3
"""Measures `bulk 7 SIZE` of the sample server, which makes up a session, serves it in memory, and sums it up.

Usage: bench/bulk.py [PROGRAM [PROGRAM]] [SIZE ..]     (default: 100000)
"""
import measured
from measured import Figure, Row


def rows(sizes):
    for size in sizes.or_else(100_000):
        words = ["bulk", "7", str(size)]

        def time(program, words=words):
            return [measured.spent([program] + words)[0] * 1e3]

        def memory(program, words=words):
            return [measured.most_memory([program] + words)]
        name = "`bulk 7 {}`".format(size)
        yield Row("bulk/time", "lsp_sample", [Figure(name, "ms")], time)
        yield Row("bulk/memory", "lsp_sample", [Figure(name, "peak KiB", max)], memory)


if __name__ == "__main__":
    measured.main(rows, __doc__)
