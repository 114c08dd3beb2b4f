#!/usr/bin/env python3
"""Measures the sample server on four kinds of messages in turn: `echo`, a `wait` of up to three polls,
a request of an unknown method, and the notification `initialized`, which is greeted.

Usage: bench/mixed.py [PROGRAM [PROGRAM]] [SIZE ..]     (default: 10000 100000 1000000)
"""
import growth
import measured
import sessions


def rows(sizes):
    for size in sizes.or_else(*growth.SIZES):
        yield growth.row("mixed", "mixed messages", sessions.mixed, size)


if __name__ == "__main__":
    measured.main(rows, __doc__)
