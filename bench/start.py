#!/usr/bin/env python3
"""Measures a start by the script against one of the program alone, on empty input, in turn, by the clock.

./lsp_sample --build comes first, so that each start is a ready one.

Usage: bench/start.py [CHECKOUT [CHECKOUT]] [RUNS]     (default: 100)
"""
import os
import statistics
import subprocess
import time

import measured
from measured import Figure, Row


def taken(command):
    """Milliseconds of one start."""
    begun = time.perf_counter()
    subprocess.run([command], stdin=subprocess.DEVNULL, stdout=subprocess.DEVNULL)
    return (time.perf_counter() - begun) * 1e3


def run(program):
    """A start of the program in a checkout's .built, and one of the checkout's script."""
    return taken(program), taken(os.path.join(os.path.dirname(os.path.dirname(program)), "lsp_sample"))


def rows(sizes):
    figures = [Figure("a start of the program alone, median", "ms", statistics.median),
               Figure("a start by the script, median", "ms", statistics.median)]
    yield Row("start", ".built/lsp_sample", figures, run, (), sizes.or_else(100)[0])


if __name__ == "__main__":
    measured.main(rows, __doc__)
