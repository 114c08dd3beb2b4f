"""What a hostile editor tells of its documents, to `lsp_sample docs`."""
import itertools
import json

from hostile_input import EXIT, INITIALIZE, MIB, SHUT_DOWN, SHUTDOWN, cancel, expect
from hostile_memory import refused
from hostile_run import Fed, Row, frame, numbered, repeated

URI = "file:///a"
OFFERED = b'{"jsonrpc":"2.0","result":{"capabilities":{"textDocumentSync":{"change":2,"openClose":true}}},"id":1}'
REFUSED = b'{"jsonrpc":"2.0","method":"window/logMessage","params":{"message":"refused","type":1}}'
END = frame(SHUTDOWN) + frame(EXIT)
MOST = (1 << 32) - 1


def written(value):
    return json.dumps(value, separators=(",", ":"), ensure_ascii=False).encode()


def notification(method, **params):
    return written({"jsonrpc": "2.0", "method": "textDocument/" + method, "params": params})


def opened(text, uri=URI, version=1):
    return notification("didOpen", textDocument={"uri": uri, "languageId": "text", "version": version, "text": text})


def place(line, character):
    return {"line": line, "character": character}


def change(start, end, text):
    return {"range": {"start": place(*start), "end": place(*end)}, "text": text}


def changed(changes, uri=URI, version=2):
    return notification("didChange", textDocument={"uri": uri, "version": version}, contentChanges=changes)


def closed(uri=URI):
    return notification("didClose", textDocument={"uri": uri})


def text_of(uri=URI):
    return b'{"jsonrpc":"2.0","method":"docs/text","params":{"uri":"%s"},"id":9}' % uri.encode()


def told(text, version):
    """The answer to `text_of`."""
    return b'{"jsonrpc":"2.0","result":%s,"id":9}' % written({"text": text, "version": version})


def session(bodies, logged, answer):
    """The program is told these, refuses so many, and then tells the document."""
    def run(program):
        with Fed(program) as server:
            server.feed(itertools.chain([frame(INITIALIZE)], bodies(), [frame(text_of()), END]))
            wanted = frame(answer) + frame(SHUT_DOWN)
            expect(server.counted(), logged + 3, "messages")
            expect(server.end[-len(wanted):], wanted[-4096:], "the last")
            return server.ends(0)
    return run


def far(count):
    """Changes past the end of the line and of the text, which stand at the end."""
    each = frame(changed([change((MOST, MOST), (MOST, MOST), ""), change((0, MOST), (0, MOST), "")]))
    return session(lambda: itertools.chain([frame(opened("a\nb"))], repeated(each, count)), 0, told("a\nb", 2))


def behind(count):
    """Changes whose start stands behind their end: each is refused."""
    each = frame(changed([change((0, 0), (0, 1), "x"), change((1, 0), (0, 0), "y")]))
    return session(lambda: itertools.chain([frame(opened("a\nb"))], repeated(each, count)), count, told("a\nb", 1))


def again(count):
    """One document is opened again and again: each but the first is refused."""
    other = frame(opened("b"))
    return session(lambda: itertools.chain([frame(opened("a"))], repeated(other, count)), count, told("a", 1))


def open_and_closed(count):
    both = frame(closed()) + frame(opened("a"))
    return session(lambda: itertools.chain([frame(opened("a"))], repeated(both, count)), 0, told("a", 1))


def many(count):
    """So many documents are open at once, and each is changed."""
    def bodies():
        yield frame(opened("a"))
        yield from numbered(0, count, lambda number: opened("a text", "file:///%d" % number))
        yield from numbered(0, count, lambda number: changed([change((0, 1), (0, 2), "b")], "file:///%d" % number))
    return session(bodies, 0, told("a", 1))


def typed(count):
    """One letter at the start, so often."""
    each = frame(changed([change((0, 0), (0, 0), "x")]))
    return session(lambda: itertools.chain([frame(opened(""))], repeated(each, count)), 0, told("x" * count, 2))


def at_once(count):
    """So many changes in one notification."""
    body = changed([change((0, 0), (0, 0), "x")] * count)
    return session(lambda: [frame(opened("")), frame(body)], 0, told("x" * count, 2))


def large(mebibytes):
    """A document of so many mebibytes, of astral characters, in which one is replaced, and which is told."""
    count = mebibytes * MIB // 4

    def run(program):
        with Fed(program) as server:
            last = changed([change((0, 2 * count - 2), (0, 2 * count), "y")])
            server.feed([frame(INITIALIZE), frame(opened("\U0001f600" * count)), frame(last), frame(text_of()), END])
            wanted = ("\U0001f600" * 8 + 'y","version":2},"id":9}').encode() + frame(SHUT_DOWN)
            expect(server.counted(), 3, "messages")
            expect(server.end[-len(wanted):], wanted, "the last")
            return server.ends(0)
    return run


# What the editor tells, of which parts are refused.
MIXED = [INITIALIZE, opened("a\U0001f600b\r\nc"),
         changed([change((0, 1), (0, 3), "\u6f22"), change((1, 0), (1, 0), "d\n")]), text_of(), opened("other"),
         changed([change((1, 1), (0, 0), "")]), changed([{"text": "all of it"}], version=7), text_of(),
         changed([], "file:///b"), closed("file:///b"), closed(), text_of(), cancel(9),
         b'{"jsonrpc":"2.0","method":"docs/text","id":3}', SHUTDOWN, EXIT]


def rows(full):
    million = 1_000_000
    yield Row("docs: 1,000,000 changes past the end", 4_000, 60, far(million))
    yield Row("docs: 1,000,000 changes whose start is behind the end", 4_000, 60, behind(million))
    yield Row("docs: one document opened 1,000,000 times", 4_000, 60, again(million))
    yield Row("docs: a document opened and closed 1,000,000 times", 4_000, 60, open_and_closed(million))
    yield Row("docs: 100,000 open documents, each changed", 100_000, 30, many(100_000))
    yield Row("docs: a letter typed at the start 100,000 times", 8_000, 60, typed(100_000))
    yield Row("docs: 100,000 changes of one notification", 450_000, 60, at_once(100_000))
    size = 60 if full else 16
    yield Row("docs: a document of %d MiB in astral characters" % size, 20_000 * size, 30, large(size))
    data = b"".join(map(frame, MIXED))
    for name, alone in (("each growth refused", True), ("each growth refused with all later ones", False)):
        yield Row("docs: a mixed session, %s" % name, 0, 60, refused(data, alone))
