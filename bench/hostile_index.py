"""What a hostile dump holds, as an index is asked over it."""
import itertools
import json

import hostile_ends
from hostile_memory import refused
from hostile_run import Failure, Fed, Row, repeated

MIB = 1 << 20
DONE, WRITE_FAULT, BAD_INPUT = 0, 4, 8
WORDS = ["file:///a", "1", "1"]
# A document, its range at the position that is asked for, and the result of each kind.
BEGUN = [
    {"id": 1, "type": "vertex", "label": "document", "uri": "file:///a", "languageId": "x"},
    {"id": 2, "type": "vertex", "label": "range", "start": {"line": 1, "character": 0}, "end": {"line": 1, "character": 3}},
    {"id": 3, "type": "edge", "label": "contains", "outV": 1, "inVs": [2]},
]
PLACE = b'{"range":{"end":{"character":3,"line":1},"start":{"character":0,"line":1}},"uri":"file:///a"}'


def lines(entries):
    return b"".join(json.dumps(entry, separators=(",", ":")).encode() + b"\n" for entry in entries)


def batches(count, make, first=0, size=10_000):
    """The lines of the entries that are made of numbers."""
    for at in range(first, first + count, size):
        yield lines(make(number) for number in range(at, min(at + size, first + count)))


def edge(number, label, out, **to):
    return {"id": number, "type": "edge", "label": label, "outV": out, **to}


def asked(request, pieces, status, wanted):
    """A query over a dump that begins as each does: the program ends so, and writes that."""
    def run(program):
        with Fed([*program, request, *WORDS]) as index:
            index.feed(itertools.chain([lines(BEGUN)], pieces()))
            whole = b"".join(index.pieces())
            if whole != wanted():
                raise Failure("FAILED: wrote %d bytes, %r" % (len(whole), whole[:200]))
            return index.ends(status)
    return run


def nothing():
    return b""


def none_found():
    return b"[]\n"


def hover(length):
    """A hover's text of so many bytes, in one line."""
    head = lines([edge(4, "textDocument/hover", 2, inV=5)])
    line = b'{"id":5,"type":"vertex","label":"hoverResult","result":{"contents":"', b'"}}\n'
    return asked("hover", lambda: itertools.chain([head, line[0]], repeated(b"x", length), [line[1]]), DONE,
                 lambda: b'{"contents":"' + b"x" * length + b'"}\n')


def circle(count):
    """A circle of so many edges `next`."""
    def pieces():
        return batches(count, lambda n: edge(n + 10, "next", n + 2, inV=n + 3 if n + 1 < count else 2))
    return asked("definition", pieces, DONE, none_found)


def one_item(count):
    """An item that names one place so many times."""
    def pieces():
        return [lines([edge(4, "textDocument/references", 2, inV=5),
                       edge(6, "item", 5, inVs=[2] * count, document=1, property="references")])]
    return asked("references", pieces, DONE, lambda: b"[" + PLACE + b"]\n")


def places(count):
    """An item for each of so many places."""
    def pieces():
        yield lines([edge(4, "textDocument/definition", 2, inV=5)])
        yield from batches(count, lambda n: {"id": n, "type": "vertex", "label": "range",
                                             "start": {"line": n, "character": 0}, "end": {"line": n, "character": 1}}, 10)
        yield from batches(count, lambda n: edge(0, "item", 5, inVs=[n], document=1), 10)
    return asked("definition", pieces, DONE, lambda: b"[" + b",".join(
        b'{"range":{"end":{"character":1,"line":%d},"start":{"character":0,"line":%d}},"uri":"file:///a"}' % (n, n)
        for n in range(10, 10 + count)) + b"]\n")


def further_results(count):
    """Results that lead each to the next and to all before, and the last to a place."""
    def pieces():
        yield lines([edge(4, "textDocument/references", 2, inV=10)])
        yield from batches(count, lambda n: edge(0, "item", n, inVs=[n + 1, 10, n], document=1, property="referenceResults"), 10)
        yield lines([edge(0, "item", 10 + count, inVs=[2], document=1, property="references")])
    return asked("references", pieces, DONE, lambda: b"[" + PLACE + b"]\n")


def one_id(count):
    """Vertices of one id, of which the first alone counts."""
    vertex = lines([{"id": 2, "type": "vertex", "label": "document", "uri": "file:///a", "languageId": "x"}])
    return asked("definition", lambda: repeated(vertex, count), DONE, none_found)


def unread(count):
    """Vertices of labels that no query looks at, in memory of their ids alone."""
    def pieces():
        return batches(count, lambda n: {"id": n + 10, "type": "vertex", "label": "moniker", "scheme": "x" * 80,
                                         "identifier": "y" * 80, "unique": "project"})
    return asked("definition", pieces, DONE, none_found)


def of_bytes(unit, count, status, wanted):
    return asked("definition", lambda: repeated(unit, count), status, wanted)


def small_objects():
    whole = b"[" + b",".join([b'{"a":0}'] * (MIB // 8)) + b"]"
    return asked("definition", lambda: [b'{"id":9,"type":"vertex","label":"hoverResult","result":', whole, b"}\n"],
                 BAD_INPUT, nothing)


def output(open_one):
    """An answer that can't be written."""
    def run(program):
        with open_one() as end, Fed([*program, "definition", *WORDS], stdout=end) as index:
            index.feed([lines(BEGUN)])
            return index.ends(WRITE_FAULT)
    return run


# One of each kind of entry that a query looks at.
DUMP = lines(BEGUN + [
    {"id": 4, "type": "vertex", "label": "resultSet"}, edge(5, "next", 2, inV=4),
    {"id": 6, "type": "vertex", "label": "hoverResult", "result": {"contents": ["x", {"language": "y", "value": "z"}]}},
    edge(7, "textDocument/hover", 4, inV=6), edge(8, "textDocument/definition", 4, inV=20),
    edge(9, "textDocument/references", 4, inV=21),
    edge(10, "item", 20, inVs=[2, 2], document=1), edge(11, "item", 21, inVs=[22], document=1, property="referenceResults"),
    edge(12, "item", 22, inVs=[2], document=1, property="references"),
    {"id": "text", "type": "vertex", "label": "moniker", "scheme": "x", "identifier": "y", "unique": "project"},
])

ANSWERS = {"definition": b"[" + PLACE + b"]\n", "references": b"[" + PLACE + b"]\n",
           "hover": b'{"contents":["x",{"language":"y","value":"z"}]}\n'}


def rows(_):
    yield Row("index: a hover of 64 MiB", 500_000, 10, hover(64 * MIB))
    yield Row("index: 64 MiB of letters without an end of line", 200_000, 5, of_bytes(b"x", 64 * MIB, BAD_INPUT, nothing))
    yield Row("index: 64 MiB of CR", 200_000, 5, of_bytes(b"\r", 64 * MIB, BAD_INPUT, nothing))
    yield Row("index: 1 GB of line ends", 4_000, 20, of_bytes(b"\n", 1_000_000_000, DONE, none_found))
    yield Row("index: 1 GB of CR LF", 4_000, 20, of_bytes(b"\r\n", 500_000_000, DONE, none_found))
    yield Row("index: 60 MiB of `[`", 200_000, 10, of_bytes(b"[", 60 * MIB, BAD_INPUT, nothing))
    yield Row("index: small objects, 1 MiB", 130_000, 5, small_objects())
    yield Row("index: a circle of 1,000,000 edges", 400_000, 20, circle(1_000_000))
    yield Row("index: 1,000,000 times one place in an item", 300_000, 20, one_item(1_000_000))
    yield Row("index: 200,000 places of 200,000 items", 150_000, 20, places(200_000))
    yield Row("index: 200,000 results that lead to the next", 400_000, 20, further_results(200_000))
    yield Row("index: 1,000,000 vertices of one id", 4_000, 20, one_id(1_000_000))
    yield Row("index: 500,000 vertices that no query looks at", 150_000, 20, unread(500_000))
    for name, end in (("full", hostile_ends.full), ("a pipe without a reader", hostile_ends.pipe_without_reader),
                      ("reset", hostile_ends.reset_socket)):
        yield Row("index: output is %s" % name, 4_000, 1, output(end))
    for request, whole in ANSWERS.items():
        words = [request, *WORDS]
        yield Row("index: %s, each growth refused" % request, 0, 60, refused(DUMP, True, words, whole))
        yield Row("index: %s, each growth refused with all later ones" % request, 0, 60, refused(DUMP, False, words, whole))
