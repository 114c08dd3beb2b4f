"""Memory that is refused: the whole address space is bounded, or each growth is refused in turn."""
import collections
import os
import resource
import subprocess
import tempfile

import sessions
from hostile_input import ASK, EXIT, FOLDERS, INITIALIZE, SHUTDOWN, cancel
from hostile_run import Failure, Found, Row, frame

KIB = 1024
NO_MEMORY = 6
# A library that stands before the C library: the growths of the numbers from one to another are refused.
REFUSING = r"""
#define _GNU_SOURCE
#include <dlfcn.h>
#include <errno.h>
#include <fcntl.h>
#include <stdio.h>
#include <stdlib.h>
#include <unistd.h>

static long count, first, last;
static char *told;

__attribute__((constructor)) static void begin(void) {
  char *numbers = getenv("REFUSED");
  told = getenv("REFUSED_TOLD");
  if (numbers) sscanf(numbers, "%ld %ld", &first, &last);
}

static int refused(void) {
  long number = __atomic_add_fetch(&count, 1, __ATOMIC_SEQ_CST);
  if (number == first) close(open(told, O_CREAT | O_WRONLY, 0600));
  return number >= first && number <= last;
}

#define NEXT(name) ((typeof(&name)) dlsym(RTLD_NEXT, #name))
void *malloc(size_t size) {
  static void *(*next)(size_t);
  if (!next) next = NEXT(malloc);
  if (refused()) { errno = ENOMEM; return 0; }
  return next(size);
}
void *realloc(void *old, size_t size) {
  static void *(*next)(void *, size_t);
  if (!next) next = NEXT(realloc);
  if (refused()) { errno = ENOMEM; return 0; }
  return next(old, size);
}
int posix_memalign(void **out, size_t align, size_t size) {
  static int (*next)(void **, size_t, size_t);
  if (!next) next = NEXT(posix_memalign);
  if (refused()) return ENOMEM;
  return next(out, align, size);
}
void *aligned_alloc(size_t align, size_t size) {
  static void *(*next)(size_t, size_t);
  if (!next) next = NEXT(aligned_alloc);
  if (refused()) { errno = ENOMEM; return 0; }
  return next(align, size);
}
"""


# The sessions whose growths are refused.
SESSIONS = {
    "a whole session": [INITIALIZE, SHUTDOWN, EXIT],
    "a cancel": [INITIALIZE, sessions.execute(3, b"wait", b"1000"), cancel(3), cancel(3)],
    "a question to the editor": [INITIALIZE, ASK, FOLDERS],
    "a mixed session": [INITIALIZE, sessions.INITIALIZED, *map(sessions.mixed, range(4, 36)), sessions.unknown(40),
                        sessions.execute(41, b"wait", b"1000"), sessions.execute(41, b"echo", b"1"), b"[1]", b"{",
                        sessions.execute(42, b"wait", b"1000"), cancel(42), b'{"jsonrpc":"2.0","result":null,"id":5}',
                        sessions.execute(43, b"echo", b'"' + b"x" * 100_000 + b'"'), SHUTDOWN, EXIT],
}


def ran(words, data, environment=None):
    """What is written of this input, and the status."""
    done = subprocess.run(words, input=data, stdout=subprocess.PIPE, stderr=subprocess.DEVNULL, env=environment,
                          timeout=60)
    return done.stdout, done.returncode


def begins(whole, part, what):
    if not whole.startswith(part):
        raise Failure("FAILED: %s: what is written isn't a beginning: %r" % (what, part[:200]))


def address_space(program):
    """From 2 MB up, until the session ends well eight times in a row: what is written begins what is written then,
    and the status is that of no memory, or the program isn't begun at all."""
    data = b"".join(map(frame, SESSIONS["a mixed session"]))
    whole, status = ran(program, data)
    begun, kibibytes, well, seen = children_seconds(), 2_000, 0, collections.Counter()
    while well < 8 and kibibytes < 64_000:
        found, ended = ran(["sh", "-c", 'ulimit -v %d; exec "$@"' % kibibytes, "sh", *program], data)
        what = "%d KiB" % kibibytes
        begins(whole, found, what)
        if ended not in (status, NO_MEMORY) and (found or ended not in NOT_BEGUN):
            raise Failure("FAILED: status %d with %s, after %d bytes" % (ended, what, len(found)))
        if ended == status and found != whole:
            raise Failure("FAILED: with %s the status is %d, and an answer is missing" % (what, status))
        well = well + 1 if ended == status else 0
        seen[ended] += 1
        kibibytes += 64
    if well < 8 or not seen[NO_MEMORY]:
        raise Failure("FAILED: statuses %r" % dict(seen))
    note = ", ".join("status %d %d times" % each for each in sorted(seen.items()))
    return Found(0, children_seconds() - begun, note)


def children_seconds():
    """The time on a processor of all programs that have ended."""
    usage = resource.getrusage(resource.RUSAGE_CHILDREN)
    return usage.ru_utime + usage.ru_stime


# The loader's status, and those of a program that the system couldn't begin.
NOT_BEGUN = 126, 127, -7, -9, -11


def refused(data, alone, words=(), whole=None):
    """Each growth is refused in turn, alone or with all later ones."""
    def run(program):
        found, status = ran([*program, *words], data)
        if whole not in (None, found):
            raise Failure("FAILED: with nothing refused: %r" % found[:200])
        return each_refused(program, words, data, alone, found, status)
    return run


def each_refused(program, words, data, alone, whole, status):
    """How many growths there are, and how many of them were told by the status."""
    begun, number, refusals = children_seconds(), 0, 0
    with tempfile.TemporaryDirectory() as folder:
        library, told = os.path.join(folder, "refusing.so"), os.path.join(folder, "told")
        build(folder, library)
        while True:
            number += 1
            last = number if alone else 1 << 40
            given = dict(os.environ, LD_PRELOAD=library, REFUSED_TOLD=told, REFUSED="%d %d" % (number, last))
            found, ended = ran([*program, *words], data, given)
            begins(whole, found, "growth %d" % number)
            if ended != NO_MEMORY and (ended != status or found != whole):
                raise Failure("FAILED: status %d where growth %d is refused" % (ended, number))
            refusals += ended == NO_MEMORY
            if not os.path.exists(told):
                break
            os.remove(told)
    if not refusals:
        raise Failure("FAILED: no growth was refused")
    return Found(0, children_seconds() - begun, "%d growths, %d told" % (number - 1, refusals))


def build(folder, library):
    source = os.path.join(folder, "refusing.c")
    with open(source, "w") as out:
        out.write(REFUSING)
    subprocess.run(["cc", "-O1", "-shared", "-fPIC", "-o", library, source, "-ldl"], check=True)


def rows(_):
    yield Row("address space from 2 MB up, by 64 KiB", 0, 60, address_space)
    for name, session in SESSIONS.items():
        data = b"".join(map(frame, session))
        yield Row("%s, each growth refused" % name, 0, 60, refused(data, True))
        yield Row("%s, each growth refused with all later ones" % name, 0, 60, refused(data, False))


def rows_in_memory():
    """The sessions that the program makes up, in memory."""
    for words, whole in ((("bulk", "7", "40"), None), (("talk", "2", "3"), b"sent 6 delivered 6\n")):
        name = "`%s`, each growth refused" % " ".join(words)
        yield Row(name, 0, 60, refused(b"", True, words, whole))
        yield Row(name + " with all later ones", 0, 60, refused(b"", False, words, whole))
