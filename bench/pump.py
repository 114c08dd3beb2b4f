#!/usr/bin/env python3
"""Measures lsp_sample while a thread of its own reads, `pump 4 8`, beside `serve 4 8`, which reads between its steps.

- A round trip: an `echo` is sent when the one before it was answered, 20,000 times; the middle one, and the slowest of a
  hundred. Some of it is the system's, which `cat` in the program's place has too.
- A flood of SIZE messages from a file, unregistered notifications and requests of an unknown method by turns.
- What a processor does over 10 seconds of silence, at rest, and while an `ask` waits for an answer that never comes.
- How often a call is polled meanwhile, where nothing is sent: a `wait` of 1,000 polls.

The processor's time is that of all threads.

Usage: bench/pump.py [PROGRAM [PROGRAM]] [SIZE ..] [--only ROW ..]     (default: 1000000)
"""
import os
import select
import subprocess
import time

import measured
import sessions
from measured import LIMIT, Figure, Row

WAYS = ("serve", "pump")
WORDS = {way: (way, "4", "8") for way in WAYS}
TRIPS = 20_000
SECONDS = 10
POLLS = 1_000
WARM = 500


def taken(process):
    """Seconds of a processor that all threads of the process have taken, to the nanosecond."""
    folder, total = "/proc/%d/task" % process.pid, 0
    for thread in os.listdir(folder):
        with open(os.path.join(folder, thread, "schedstat")) as file:
            total += int(file.read().split()[0])
    return total / 1e9


class Session:
    """A program with its input and output at pipes, to which messages are sent one by one."""

    def __init__(self, words):
        self.process = subprocess.Popen(words, stdin=subprocess.PIPE, stdout=subprocess.PIPE, bufsize=0)
        self.rest = b""

    def __enter__(self):
        return self

    def __exit__(self, *_):
        self.process.kill()
        self.process.wait()
        self.process.stdin.close()
        self.process.stdout.close()

    def send(self, body):
        os.write(self.process.stdin.fileno(), sessions.frame(body))

    def receive(self):
        """The body of the next frame."""
        while True:
            head, found, rest = self.rest.partition(b"\r\n\r\n")
            length = int(head[16:]) if found else 0
            if found and len(rest) >= length:
                self.rest = rest[length:]
                return rest[:length]
            ready = select.select([self.process.stdout], [], [], LIMIT)[0]
            piece = os.read(self.process.stdout.fileno(), 1 << 16) if ready else b""
            if not piece:
                measured.failed(self.process.args, "no answer came")
            self.rest += piece

    def ask(self, body):
        self.send(body)
        return self.receive()

    def begin(self):
        self.ask(sessions.INITIALIZE)

    def end(self):
        self.ask(sessions.SHUTDOWN)
        self.send(sessions.EXIT)
        measured.await_exit(self.process)


def microseconds(session, trips):
    """What each of so many round trips takes, from the shortest to the longest."""
    found = []
    for number in range(trips):
        body = sessions.echo(number)
        begun = time.perf_counter_ns()
        session.ask(body)
        found.append((time.perf_counter_ns() - begun) / 1e3)
    return sorted(found)


def middle_and_slow(found):
    return [found[len(found) // 2], found[len(found) * 99 // 100]]


def round_trips(way):
    def run(program):
        with Session([program, *WORDS[way]]) as session:
            session.begin()
            microseconds(session, WARM)
            begun = taken(session.process)
            found = microseconds(session, TRIPS)
            each = (taken(session.process) - begun) * 1e6 / TRIPS
            session.end()
        return [*middle_and_slow(found), each]
    title = "a round trip, `%s 4 8`" % way
    figures = [Figure(title, "us, p50"), Figure(title, "us, p99"), Figure(title, "us of a processor")]
    return Row("pump/trip", "lsp_sample", figures, run, words=WORDS[way])


def round_trips_of_the_system(_):
    """The same through a program that gives back what it reads."""
    with Session(["cat"]) as session:
        microseconds(session, WARM)
        return middle_and_slow(microseconds(session, TRIPS))


def mixed(number):
    return sessions.note(number) if number % 2 else sessions.unknown(number)


def flood(way, size):
    def run(program, path):
        begun = time.perf_counter()
        processor = measured.spent([program, *WORDS[way]], path)[0]
        return [processor * 1e3, size / (time.perf_counter() - begun)]

    def memory(program, path):
        return [measured.most_memory([program, *WORDS[way]], path)]
    title = "{:,} messages from a file, `{} 4 8`".format(size, way)
    inputs = [sessions.session(mixed, size, sessions.SHUTDOWN, sessions.EXIT)]
    figures = [Figure(title, "ms of a processor"), Figure(title, "messages a second", max)]
    yield Row("pump/flood", "lsp_sample", figures, run, inputs, words=WORDS[way])
    yield Row("pump/memory", "lsp_sample", [Figure(title, "peak KiB", max)], memory, inputs, 1, words=WORDS[way])


def silence(way, waits):
    """What a processor does while nothing is sent."""
    def run(program):
        with Session([program, *WORDS[way]]) as session:
            session.begin()
            if waits:
                session.ask(sessions.request(1, b"workspace/executeCommand", b'{"command":"ask"}'))
            time.sleep(0.5)
            begun = taken(session.process)
            time.sleep(SECONDS)
            return [(taken(session.process) - begun) * 1e3 / SECONDS]
    title = "silence%s, `%s 4 8`" % (" with a call that waits" if waits else "", way)
    figures = [Figure(title, "ms of a processor a second")]
    return Row("pump/waits" if waits else "pump/rest", "lsp_sample", figures, run, tries=1, words=WORDS[way])


def polls(program):
    """How often a call that waits is polled where nothing is sent. `serve` polls it with the next message alone."""
    with Session([program, "pump", "4", "1"]) as session:
        session.begin()
        begun = time.perf_counter()
        session.ask(sessions.execute(1, b"wait", b"%d" % POLLS))
        seconds = time.perf_counter() - begun
        session.end()
    return [POLLS / seconds, seconds * 1e3 / POLLS]


def rows(sizes):
    figures = [Figure("a round trip, `cat`", "us, p50"), Figure("a round trip, `cat`", "us, p99")]
    yield Row("pump/system", "lsp_sample", figures, round_trips_of_the_system)
    for way in WAYS:
        yield round_trips(way)
    for size in sizes.or_else(1_000_000):
        for way in WAYS:
            yield from flood(way, size)
    for waits in (False, True):
        for way in WAYS:
            yield silence(way, waits)
    title = "a call that waits in silence, `pump 4 1`"
    figures = [Figure(title, "polls a second", max), Figure(title, "ms between two")]
    yield Row("pump/polls", "lsp_sample", figures, polls, words=WORDS["pump"])


if __name__ == "__main__":
    measured.main(rows, __doc__)
