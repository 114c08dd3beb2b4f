"""Reads and writes of the system that fail, are interrupted or move few bytes, each in turn."""
import os
import subprocess
import tempfile

from hostile_input import EXIT, INITIALIZE, INITIALIZED, SHUT_DOWN, SHUTDOWN
from hostile_memory import SESSIONS, begins, children_seconds
from hostile_run import Failure, Found, Row, frame

READ_FAULT, WRITE_FAULT = 3, 4
NEVER = 1 << 40
# A library that stands before the C library. Reads of the standard input move so many bytes at most, and so do writes
# of the standard output; the calls of the numbers from one to another fail with an error.
CALLS = r"""
#define _GNU_SOURCE
#include <dlfcn.h>
#include <errno.h>
#include <stdio.h>
#include <stdlib.h>
#include <unistd.h>

struct calls { long most, first, last, error, count; };
static struct calls reads, writes;

static void set(struct calls *calls, const char *name) {
  char *numbers = getenv(name);
  if (numbers) sscanf(numbers, "%ld %ld %ld %ld", &calls->most, &calls->first, &calls->last, &calls->error);
}

__attribute__((constructor)) static void begin(void) {
  set(&reads, "CALLS_READS");
  set(&writes, "CALLS_WRITES");
}

static int fails(struct calls *calls) {
  long number = __atomic_add_fetch(&calls->count, 1, __ATOMIC_SEQ_CST);
  if (number < calls->first || number > calls->last) return 0;
  errno = (int) calls->error;
  return 1;
}

static size_t least(long most, size_t size) { return most > 0 && (size_t) most < size ? (size_t) most : size; }

ssize_t read(int from, void *to, size_t size) {
  static ssize_t (*next)(int, void *, size_t);
  if (!next) next = (ssize_t (*)(int, void *, size_t)) dlsym(RTLD_NEXT, "read");
  if (from != 0) return next(from, to, size);
  return fails(&reads) ? -1 : next(from, to, least(reads.most, size));
}

ssize_t write(int to, const void *from, size_t size) {
  static ssize_t (*next)(int, const void *, size_t);
  if (!next) next = (ssize_t (*)(int, const void *, size_t)) dlsym(RTLD_NEXT, "write");
  if (to != 1) return next(to, from, size);
  return fails(&writes) ? -1 : next(to, from, least(writes.most, size));
}
"""
EIO, ENOSPC = 5, 28
WHOLE = b"".join(map(frame, (INITIALIZE, SHUTDOWN, EXIT)))
ANSWERS = frame(INITIALIZED) + frame(SHUT_DOWN)
# Its input comes in 22 pieces of 10 bytes; so many bytes are written where the read of each of these numbers fails.
WRITTEN = [0] * 10 + [75] * 7 + [135] * 5


UNTIMED = ["a whole session", "a question to the editor"]


class Calls:
    """A program whose calls are those of the library."""

    def __init__(self, program):
        self.program = program
        self.folder = tempfile.TemporaryDirectory()
        self.library = os.path.join(self.folder.name, "calls.so")

    def __enter__(self):
        source = os.path.join(self.folder.name, "calls.c")
        with open(source, "w") as out:
            out.write(CALLS)
        subprocess.run(["cc", "-O1", "-shared", "-fPIC", "-o", self.library, source, "-ldl"], check=True)
        return self

    def __exit__(self, *_):
        self.folder.cleanup()

    def ran(self, data, reads=None, writes=None):
        """What is written, and the status. Given are of reads and of writes the most bytes, the first and the last call
        that fails, and the error."""
        given = dict(os.environ, LD_PRELOAD=self.library)
        for name, calls in (("CALLS_READS", reads), ("CALLS_WRITES", writes)):
            if calls:
                given[name] = "%d %d %d %d" % calls
        done = subprocess.run(self.program, input=data, stdout=subprocess.PIPE, stderr=subprocess.DEVNULL, env=given,
                              timeout=60)
        return done.stdout, done.returncode


def table(program):
    """A whole session by 10 bytes a read, of which each fails in turn, alone or with all later ones."""
    begun = children_seconds()
    with Calls(program) as calls:
        for number, length in enumerate([*WRITTEN, 135], 1):
            status = READ_FAULT if number <= len(WRITTEN) else 0
            for last in (number, NEVER):
                found = calls.ran(WHOLE, (10, number, last, EIO))
                if found != (ANSWERS[:length], status):
                    raise Failure("FAILED: read %d fails: %r, status %d" % (number, *found))
    return Found(0, children_seconds() - begun, "%d reads" % len(WRITTEN))


def each_fails(name, kind, most, error, status):
    """Each call of this kind fails in turn, and so many bytes are moved by each at most. What is written begins what is
    written otherwise, and a failure is told by the status, or it was made good."""
    data = b"".join(map(frame, SESSIONS[name]))

    def run(program):
        begun, number, told = children_seconds(), 0, 0
        with Calls(program) as calls:
            whole, wanted = calls.ran(data)
            before = b""
            while True:
                number += 1
                way = {kind: (most, number, number, error)}
                found, ended = calls.ran(data, **way)
                begins(whole, found, "call %d" % number)
                begins(found, before, "call %d tells less than the one before: call %d" % (number, number))
                if ended not in (status, wanted) or (ended != status and found != whole):
                    raise Failure("FAILED: status %d after %d bytes where call %d fails" % (ended, len(found), number))
                told += ended == status
                before = found if ended == status else before
                if ended == wanted and not failed(calls, data, way, number):
                    break
        if not told:
            raise Failure("FAILED: no failure was told")
        return Found(0, children_seconds() - begun, "%d calls, %d told" % (number - 1, told))
    return run


def failed(calls, data, way, number):
    """Whether there is a call of this number: where all later ones fail too, the session doesn't end as it does."""
    (kind, (most, _, _, error)), = way.items()
    return calls.ran(data, **{kind: (most, number, NEVER, error)})[1] in (READ_FAULT, WRITE_FAULT)


def few_bytes(program):
    """Each read and each write moves few bytes: what is written is the same. Where a thread reads, calls that wait are
    polled as often as there is time for, so sessions with such calls are left out then."""
    begun = children_seconds()
    names = UNTIMED if "pump" in program else SESSIONS
    with Calls(program) as calls:
        for name in names:
            session = SESSIONS[name]
            data = b"".join(map(frame, session))
            whole = calls.ran(data)
            for most in (1, 2, 3, 7, 13):
                found = calls.ran(data, (most, 0, 0, 0), (most, 0, 0, 0))
                if found != whole:
                    raise Failure("FAILED: %s by %d bytes: %r, status %d" % (name, most, found[0][-200:], found[1]))
    return Found(0, children_seconds() - begun)


def rows(_):
    yield Row("a whole session by 10 bytes a read, each read fails", 0, 30, table)
    for name in SESSIONS:
        most = 1_000 if "mixed" in name else 7
        for kind, error, status in (("read", EIO, READ_FAULT), ("write", ENOSPC, WRITE_FAULT)):
            run = each_fails(name, kind + "s", most, error, status)
            yield Row("%s, each %s fails, by %d bytes" % (name, kind, most), 0, 60, run)
    yield Row("each session, by few bytes a read and a write", 0, 60, few_bytes)
