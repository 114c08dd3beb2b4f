#!/usr/bin/env python3
"""Measures whether a message costs the same in a long session: floods of an unknown method, through a pipe.

The time is the processor's until the answer to `shutdown` has come. `memory` is one run at the last size, of
which the bytes that were written are counted too.

Usage: bench/growth.py [PROGRAM [PROGRAM]] [SIZE ..]     (default: 10000 100000 1000000)
"""
import subprocess

import measured
import sessions
from measured import Figure, Row
from sessions import frame

SIZES = 10_000, 100_000, 1_000_000
UNKNOWN = "requests of an unknown method"


def served(program, path):
    """Seconds of the processor and kilobytes until the last answer has come, and the bytes written."""
    feeder = subprocess.Popen(["cat", path, "-"], stdin=subprocess.PIPE, stdout=subprocess.PIPE)
    server = subprocess.Popen([program], stdin=feeder.stdout, stdout=subprocess.PIPE)
    feeder.stdout.close()
    count = measured.await_end(server, frame(sessions.SHUT_DOWN))
    found = measured.processor_seconds(server), measured.peak(server), count
    feeder.communicate(frame(sessions.EXIT))
    measured.await_exit(server)
    return found


def row(name, label, body, size):
    """Sessions of so many such messages."""
    title = "{:,} {}".format(size, label)

    def run(program, path):
        seconds, kilobytes, _ = served(program, path)
        return seconds * 1e6 / size, kilobytes
    figures = [Figure(title, "us a message"), Figure(title, "peak KiB", max)]
    return Row(name, "lsp_sample", figures, run, [sessions.session(body, size, sessions.SHUTDOWN)])


def memory(size):
    title = "{:,} {}".format(size, UNKNOWN)

    def run(program, path):
        return served(program, path)[1:]
    figures = [Figure(title, "peak KiB", max), Figure(title, "bytes written", max)]
    return Row("memory", "lsp_sample", figures, run, [sessions.session(sessions.unknown, size, sessions.SHUTDOWN)], 1)


def rows(sizes):
    asked = sizes.or_else(*SIZES)
    yield memory(asked[-1])
    for size in asked:
        yield row("growth", UNKNOWN, sessions.unknown, size)


if __name__ == "__main__":
    measured.main(rows, __doc__)
