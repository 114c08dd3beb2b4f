"""A program that is tried by .ci/hostile: what it is fed, what it writes, and what it takes."""
import os
import resource
import select
import subprocess
import threading
import time
from collections import namedtuple

# How long a row may take, in seconds.
LIMIT = 300
PIECE = 1 << 20


class Failure(Exception):
    pass


# What a run took: the most kilobytes held, seconds of a processor, and what else is told.
Found = namedtuple("Found", "kilobytes seconds note", defaults=("",))


class Row:
    """A row: its name, the most kilobytes and seconds, and what runs it on a program, which is a list of words."""

    def __init__(self, name, kilobytes, seconds, run):
        self.name = name
        self.kilobytes = kilobytes
        self.seconds = seconds
        self.run = run

    def passed(self, found):
        """Which limit was passed, if one was."""
        if found.kilobytes > self.kilobytes:
            return "FAILED: too much memory"
        if found.seconds > self.seconds:
            return "FAILED: too long"
        return None


def shown(row, found):
    """The figures of a row, with its limits."""
    took = ("-", "-") if found is None else ("{:,}".format(found.kilobytes), "%.2f" % found.seconds)
    limits = "{:,}".format(row.kilobytes), "%g" % row.seconds
    return " | ".join((took[0].rjust(10), limits[0].rjust(10), took[1].rjust(7), limits[1].rjust(5)))


def frame(body):
    return b"Content-Length: %d\r\n\r\n%s" % (len(body), body)


class Fed:
    """A program with its input and output at the ends of pipes. A thread of this program feeds it, and another
    notes what it holds."""

    # How many bytes of address space it may have: past them it is refused memory.
    most = 6 << 30

    def __init__(self, words, **others):
        self.begun = time.monotonic()
        others.setdefault("stdin", subprocess.PIPE)
        others.setdefault("stdout", subprocess.PIPE)
        self.process = subprocess.Popen(words, bufsize=0, **others)
        resource.prlimit(self.process.pid, resource.RLIMIT_AS, (self.most, self.most))
        self.peak = 0
        self.feeder = None
        self.fault = None
        self.count = 0
        self.end = b""
        self.watcher = threading.Thread(target=self.watch, daemon=True)
        self.watcher.start()

    def __enter__(self):
        return self

    def __exit__(self, *_):
        self.process.kill()
        self.process.wait()
        for end in (self.process.stdin, self.process.stdout):
            if end:
                try:
                    end.close()
                except OSError:
                    pass
        if self.feeder:
            self.feeder.join()

    # ---- What it takes.

    def look(self):
        """Notes the most kilobytes held until now; says whether the program still stands."""
        try:
            with open("/proc/%d/status" % self.process.pid) as status:
                for line in status:
                    if line.startswith("VmHWM:"):
                        self.peak = max(self.peak, int(line.split()[1]))
                        return True
        except OSError:
            pass
        return False

    def watch(self):
        while self.look():
            time.sleep(0.01)

    def seconds(self):
        """The time of its threads on a processor until now."""
        folder, taken = "/proc/%d/task" % self.process.pid, 0
        for thread in os.listdir(folder):
            try:
                with open(os.path.join(folder, thread, "schedstat")) as schedstat:
                    taken += int(schedstat.read().split()[0])
            except OSError:
                # It has ended meanwhile.
                pass
        return taken / 1e9

    # ---- What comes in.

    def feed(self, pieces, close=True):
        """Writes the pieces while the program is read from."""
        def write():
            try:
                for piece in pieces:
                    view = memoryview(piece)
                    while view:
                        view = view[os.write(self.process.stdin.fileno(), view):]
                if close:
                    self.process.stdin.close()
            except OSError as why:
                self.fault = why
        self.feeder = threading.Thread(target=write, daemon=True)
        self.feeder.start()

    # ---- What goes out.

    def pieces(self):
        """What the program writes, to the end of its output."""
        while True:
            left = LIMIT - (time.monotonic() - self.begun)
            if left <= 0 or not select.select([self.process.stdout], [], [], left)[0]:
                raise Failure("FAILED: no end within %d s" % LIMIT)
            piece = os.read(self.process.stdout.fileno(), PIECE)
            if not piece:
                return
            yield piece

    def counted(self):
        """How many messages are written to the end of output; their last bytes are kept."""
        before = b""
        word = b'Content-Length: '
        for piece in self.pieces():
            self.count += (before + piece).count(word)
            before = (before + piece)[-len(word) + 1:]
            self.end = (self.end + piece)[-4096:]
        return self.count

    def ends(self, status):
        """What was taken, where the program ends so."""
        ended = 0
        while not ended:
            if time.monotonic() - self.begun > LIMIT:
                raise Failure("FAILED: no end within %d s" % LIMIT)
            ended, code, usage = os.wait4(self.process.pid, os.WNOHANG)
            time.sleep(0 if ended else 0.002)
        self.process.returncode = os.waitstatus_to_exitcode(code)
        self.watcher.join()
        if self.process.returncode != status:
            raise Failure("FAILED: ended with status %d" % self.process.returncode)
        return Found(self.peak, usage.ru_utime + usage.ru_stime)


def in_pieces(data, size):
    for at in range(0, len(data), size):
        yield data[at:at + size]


def repeated(unit, count):
    """So many times these bytes, in pieces of about a megabyte."""
    many = max(1, PIECE // len(unit))
    whole = unit * many
    for _ in range(count // many):
        yield whole
    yield unit * (count % many)


def numbered(first, last, make, batch=4096, pair=None):
    """The frames of the bodies that are made of numbers; where there is a pair, of both in turn."""
    makers = (make, pair) if pair else (make,)
    for start in range(first, last, batch):
        numbers = range(start, min(start + batch, last))
        yield b"".join(frame(each(number)) for number in numbers for each in makers)
