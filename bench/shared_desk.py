#!/usr/bin/env python3
"""Measures calls on a shared desk: the owner by itself, and beside three clients on threads of their own.

Each seat makes as many calls. The time is the clock's, without that of a run of no calls.

Usage: bench/shared_desk.py [PROGRAM [PROGRAM]] [CALLS ..]     (default: 100000 1000000)
"""
import subprocess
import time

import measured
from measured import Figure, Row

MODES = {"alone": "the owner of a desk alone", "beside": "an owner beside three clients, all four"}
SEATS = {"alone": 1, "beside": 4}


def taken(program, mode, calls):
    """Seconds of one run."""
    begun = time.perf_counter()
    subprocess.run([program, mode, str(calls)], check=True, stdout=subprocess.DEVNULL)
    return time.perf_counter() - begun


def row(mode, calls):
    def run(program):
        return [SEATS[mode] * calls / (taken(program, mode, calls) - taken(program, mode, 0))]
    title = "{}, {:,} calls each".format(MODES[mode], calls)
    return Row("desk/" + mode, "lsp_turns", [Figure(title, "calls a second", max)], run)


def rows(sizes):
    for calls in sizes.or_else(100_000, 1_000_000):
        for mode in MODES:
            yield row(mode, calls)


if __name__ == "__main__":
    measured.main(rows, __doc__)
