"""Rows of figures: what is measured of one program, or of two side by side, and the table of it.

A script of this folder gives its rows, and runs `main` on them. Its words are

    SCRIPT [PROGRAM [PROGRAM]] [SIZE ..] [--only ROW ..] [--short] [--tries N]

PROGRAM is a checkout, a folder of built programs, or a program (default: this checkout). The runs of two
are interleaved, and the last column has what the second takes of the first. SIZE stands in place of the
sizes of a script that has some. --short leaves out sizes above 100,000, and --tries has N runs in place of
five.
"""
import argparse
import contextlib
import os
import select
import shutil
import subprocess
import sys
import tempfile
from collections import namedtuple

ROOT = os.path.dirname(os.path.dirname(os.path.realpath(__file__)))
TRIES = 5
LIMIT = 600
SHORT = 100_000
# The programs that are measured, and what builds each.
BUILT_BY = {
    "lsp_sample": "./lsp_sample --build, or rt ci",
    "lsp_proxy_main": "./lsp_proxy --build, or rt ci",
    "lsp_turns": "rt run -- alone 1 in crates/lsp_turns",
    "frame_bench": "bench/frame.py --build",
    "docs_bench": "bench/docs.py --build",
    "types_bench": "bench/large_values.py --build",
    "talk_bench": "bench/talk.py --build",
    ".built/lsp_sample": "./lsp_sample --build",
}

# A figure of a row: what it is of, its unit, and which of the runs counts.
Figure = namedtuple("Figure", "label unit best", defaults=(min,))
# Its name for --only; the program; the figures; what gives those of a run, from the program's path and the
# paths of the inputs; what writes each input to a file; how many runs there are; the tool that it takes; words
# that not every program of the name knows.
Row = namedtuple("Row", "name program figures run inputs tries tool words", defaults=((), TRIES, "cat", ()))


# ---- Runs of a program.

def failed(words, why):
    sys.exit("%s: %s" % (" ".join(words), why))


def spent(words, path=os.devnull, output=subprocess.DEVNULL):
    """Seconds of a processor in a run on the file's bytes, and what was printed, where the output is a pipe."""
    with open(path, "rb") as given:
        child = subprocess.Popen(words, stdin=given, stdout=output)
    printed = child.stdout.read() if child.stdout else b""
    _, status, usage = os.wait4(child.pid, 0)
    child.returncode = os.waitstatus_to_exitcode(status)
    if child.returncode != 0:
        failed(words, "ended with status %d" % child.returncode)
    return usage.ru_utime + usage.ru_stime, printed


def most_memory(words, path=os.devnull):
    """The most kilobytes that the program holds in a run. (What wait4 tells counts this program's too.)"""
    with open(path, "rb") as given, tempfile.NamedTemporaryFile("r") as told:
        subprocess.run(["/usr/bin/time", "-o", told.name, "-f", "%M"] + words, stdin=given, check=True,
                       stdout=subprocess.DEVNULL)
        return int(told.read())


def peak(process):
    """The most kilobytes that the process has held until now."""
    with open("/proc/%d/status" % process.pid) as status:
        return next(int(line.split()[1]) for line in status if line.startswith("VmHWM:"))


def processor_seconds(process):
    """The time that the process has run on a processor until now."""
    with open("/proc/%d/schedstat" % process.pid) as schedstat:
        return int(schedstat.read().split()[0]) / 1e9


def await_end(process, last):
    """Reads what the process writes until these bytes have come, and counts all of it."""
    end = b""
    count = 0
    while not end.endswith(last):
        ready = select.select([process.stdout], [], [], LIMIT)[0]
        piece = os.read(process.stdout.fileno(), 1 << 16) if ready else b""
        if not piece:
            process.kill()
            failed(process.args, "the last message did not come")
        count += len(piece)
        end = (end + piece)[-len(last):]
    return count


def await_exit(process):
    """Waits until the process has ended, which has to be well."""
    if process.wait(LIMIT) != 0:
        failed(process.args, "ended with status %d" % process.returncode)


# ---- Where programs are.

class Place:
    """Where programs are looked for: a checkout, a folder of programs, or one program."""

    def __init__(self, path, usual):
        self.path = os.path.abspath(path)
        self.usual = usual

    def program(self, name):
        """The path of the program of this name, or none where it isn't built. A file is the program of its
        name, and where that is no program's, the usual one of the rows."""
        if os.path.isfile(self.path):
            base = os.path.basename(self.path)
            return self.path if name == (base if base in BUILT_BY else self.usual) else None
        if os.path.isdir(os.path.join(self.path, "crates")):
            below = [os.path.join("crates", name, "out", name), os.path.join("bench", "out", name)]
        else:
            below = [name]
        if name.startswith(".built/"):
            below = [name]
        found = (os.path.join(self.path, each) for each in below)
        return next(filter(os.path.isfile, found), None)


# ---- The table.

@contextlib.contextmanager
def written(write):
    """The path of a file with this input."""
    with tempfile.NamedTemporaryFile() as file:
        write(file)
        file.flush()
        yield file.name


def measured(row, programs, tries):
    """What the row's runs give of each program, in turn. `tries` stands in place of the usual number."""
    found = [[] for _ in programs]
    with contextlib.ExitStack() as stack:
        paths = [stack.enter_context(written(each)) for each in row.inputs]
        for _ in range(tries if row.tries == TRIES else row.tries):
            for runs, program in zip(found, programs):
                if program:
                    runs.append(row.run(program, *paths))
    return found


def shown(value):
    """A number with three digits at least, or a dash for none."""
    if value is None:
        return "-"
    return "{:,.{}f}".format(value, 0 if value >= 100 else 1 if value >= 10 else 2 if value >= 0.1 else 3)


def print_line(cells):
    first, *others = cells
    print("| %s | %s |" % (first.ljust(72), " | ".join(each.rjust(14) for each in others)), flush=True)


def knows(program, words):
    """Whether the program knows the words: the status of its usage is 2."""
    return subprocess.run([program, *words], stdin=subprocess.DEVNULL, stdout=subprocess.DEVNULL).returncode != 2


def found_of(row, places):
    """The program of each place, or none where it isn't built, or doesn't know what the row asks of it."""
    programs = [place.program(row.program) for place in places]
    return [each if each and (not row.words or knows(each, row.words)) else None for each in programs]


def lack(row, programs):
    """What a row can't be measured without, or none."""
    if not any(programs):
        known = ", or doesn't know `%s`" % " ".join(row.words) if row.words else ""
        return "%s isn't built (%s)%s" % (row.program, BUILT_BY[row.program], known)
    if not shutil.which(row.tool):
        return "%s isn't on the path" % row.tool
    return None


def print_row(row, programs, tries):
    found = measured(row, programs, tries)
    for number, figure in enumerate(row.figures):
        values = [figure.best([run[number] for run in runs]) if runs else None for runs in found]
        cells = ["%s, %s" % (figure.label, figure.unit)] + [shown(value) for value in values]
        if len(values) == 2:
            cells.append(shown(values[1] / values[0] if None not in values else None))
        print_line(cells)


def print_rows(rows, places, tries):
    """Prints the rows. One that can't be measured is skipped, which is said once of its name."""
    said = set()
    for row in rows:
        programs = found_of(row, places)
        why = lack(row, programs)
        if not why:
            print_row(row, programs, tries)
        elif row.name not in said:
            said.add(row.name)
            print("%s: skipped, since %s" % (row.name, why), file=sys.stderr, flush=True)


# ---- The words.

class Sizes:
    """The sizes that were asked for."""

    def __init__(self, given, short):
        self.given = given
        self.short = short

    def or_else(self, *usual):
        """Those that were given, or the usual ones."""
        sizes = self.given or [min(size, SHORT) if self.short else size for size in usual]
        return sorted(set(sizes))


def chosen(rows, only):
    """The rows of these names. A row's name is of one or two words, with a stroke between, and each names it."""
    names = [{row.name, *row.name.split("/")} for row in rows]
    for word in only:
        if not any(word in each for each in names):
            sys.exit("no row %s; there are %s" % (word, ", ".join(dict.fromkeys(row.name for row in rows))))
    return [row for row, each in zip(rows, names) if not only or each & set(only)]


def arguments(doc):
    parser = argparse.ArgumentParser(description=doc, formatter_class=argparse.RawDescriptionHelpFormatter)
    parser.add_argument("words", nargs="*", metavar="PROGRAM|SIZE", help="at most two programs, and sizes")
    parser.add_argument("--only", nargs="+", default=[], metavar="ROW", help="the rows of these names")
    parser.add_argument("--short", action="store_true", help="no size above 100,000")
    parser.add_argument("--tries", type=int, default=TRIES, metavar="N", help="the runs of which the least counts")
    return parser.parse_args()


def main(rows, doc):
    """Prints the rows that `rows` gives for the sizes, of the programs that the words name."""
    given = arguments(doc)
    sizes = [int(word) for word in given.words if word.isdigit()]
    rows = list(rows(Sizes(sizes, given.short)))
    paths = [word for word in given.words if not word.isdigit()] or [ROOT]
    missing = [path for path in paths if not os.path.exists(path)]
    if missing or len(paths) > 2:
        sys.exit("%s isn't there" % missing[0] if missing else "at most two programs")
    places = [Place(path, rows[0].program) for path in paths]
    print_line(["row"] + paths + ["second / first"] * (len(paths) - 1))
    print_line(["---"] + ["--:"] * (2 * len(paths) - 1))
    print_rows(chosen(rows, given.only), places, given.tries)
