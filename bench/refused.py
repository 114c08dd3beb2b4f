#!/usr/bin/env python3
"""Measures the sample server on requests that it refuses: an `initialize` after the first.

Usage: bench/refused.py [PROGRAM [PROGRAM]] [SIZE ..]     (default: 10000 100000 1000000)
"""
import growth
import measured
import sessions


def rows(sizes):
    for size in sizes.or_else(*growth.SIZES):
        yield growth.row("refused", "refused `initialize`s", sessions.refused, size)


if __name__ == "__main__":
    measured.main(rows, __doc__)
