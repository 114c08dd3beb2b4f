"""What a hostile editor sends: bytes that are no frames, long heads and bodies, floods, and one byte at a time."""
import itertools
import time

import sessions
from hostile_run import Failure, Fed, Found, Row, frame, in_pieces, numbered, repeated

MIB = 1 << 20
INITIALIZE = b'{"jsonrpc":"2.0","method":"initialize","params":{"capabilities":{}},"id":1}'
INITIALIZED = b'{"jsonrpc":"2.0","result":{"capabilities":{}},"id":1}'
PARSE_ERROR = b'{"jsonrpc":"2.0","error":{"code":-32700,"message":"Parse error"},"id":null}'
SHUTDOWN = b'{"jsonrpc":"2.0","method":"shutdown","id":2}'
SHUT_DOWN = b'{"jsonrpc":"2.0","result":null,"id":2}'
EXIT = b'{"jsonrpc":"2.0","method":"exit"}'
# A command that asks the editor for its folders, what the server asks then, the editor's answer, and what comes of it.
ASK = sessions.execute(2, b"ask", b"")
ASKED = b'{"jsonrpc":"2.0","method":"workspace/workspaceFolders","params":null,"id":0}'
FOLDERS = b'{"jsonrpc":"2.0","id":0,"result":[{"uri":"file:///w","name":"w"}]}'
TOLD = b'{"jsonrpc":"2.0","result":[{"name":"w","uri":"file:///w"}],"id":2}'
LONGEST = 64 * MIB


def expect(found, wanted, what):
    if found != wanted:
        raise Failure("FAILED: %s: wanted %r, got %r" % (what, wanted, found))


def stream(program, pieces, answers, last, status):
    """The program is fed these pieces, and then ends; it writes so many messages, the last of which are these."""
    with Fed(program) as server:
        server.feed(pieces)
        expect(server.counted(), answers, "messages")
        wanted = b"".join(map(frame, last))
        expect(server.end[-len(wanted):] if wanted else b"", wanted, "the last")
        return server.ends(status)


def exactly(program, pieces, answers, status):
    """The program is fed these pieces, and then ends; it writes just these messages."""
    with Fed(program) as server:
        server.feed(pieces)
        expect(b"".join(server.pieces()), b"".join(map(frame, answers)), "what is written")
        return server.ends(status)


def in_all_pieces(name):
    """A session in pieces of five sizes, each by a write of its own: what is written is the same."""
    bodies, answers, status = SHORT[name]

    def run(program):
        data = b"".join(map(frame, bodies))
        runs = [exactly(program, in_pieces(data, size), answers, status) for size in (1, 2, 3, 7, 13)]
        return Found(max(run.kilobytes for run in runs), sum(run.seconds for run in runs))
    return run


def unfinished(length):
    """A head of so many bytes that has no end, one byte at a time."""
    def run(program):
        head = b"Content-Length: 5\r\nX: ".ljust(length, b"x")
        return exactly(program, in_pieces(head, 1), [PARSE_ERROR], 1)
    return run


def junk(unit, count, answers):
    """A stretch of so many such bytes, and then a session: the stretch is answered so often."""
    def run(program):
        last = frame(INITIALIZE) + frame(SHUTDOWN) + frame(EXIT)
        pieces = itertools.chain(repeated(unit, count), [b"\r\n\r\n", last])
        return stream(program, pieces, answers + 2, [INITIALIZED, SHUT_DOWN], 0)
    return run


def body_of(length, kind):
    """A body of this length: a notification of an unknown method with a text, or brackets."""
    if kind == "brackets":
        return b"[" * length
    before, after = b'{"jsonrpc":"2.0","method":"$/x","params":["', b'"]}'
    return before + b"x" * (length - len(before) - len(after)) + after


def one_body(length, kind, answers):
    def run(program):
        body = body_of(length, kind)
        sent = [b"Content-Length: %d\r\n\r\n" % length, body, frame(INITIALIZE)]
        return stream(program, sent, len(answers) + 1, [*answers, INITIALIZED], 1)
    return run


def small_objects(mebibytes):
    return b"[" + b",".join([b'{"a":0}'] * (mebibytes * MIB // 8)) + b"]"


def objects(mebibytes):
    """A body of small objects."""
    def run(program):
        body = b'{"jsonrpc":"2.0","method":"$/x","params":%s}' % small_objects(mebibytes)
        return stream(program, [frame(body), frame(INITIALIZE)], 1, [INITIALIZED], 1)
    return run


def objects_again(program):
    """A body of small objects that are given back: the handler copies them."""
    body = sessions.execute(3, b"echo", small_objects(1))
    return stream(program, [frame(INITIALIZE), frame(body)], 2, [], 1)


def announced(program):
    """A body that is announced and never comes."""
    with Fed(program) as server:
        server.feed([frame(INITIALIZE), b"Content-Length: %d\r\n\r\n{" % LONGEST], close=False)
        time.sleep(1)
        server.process.stdin.close()
        expect(server.counted(), 2, "messages")
        return server.ends(1)


def flood(bodies, answers, last):
    """A session of these messages."""
    def run(program):
        end = frame(SHUTDOWN) + frame(EXIT)
        return stream(program, itertools.chain([frame(INITIALIZE)], bodies(), [end]), answers, last, 0)
    return run


def wait(number):
    return sessions.execute(number, b"wait", b"1000")


def cancel(number):
    return b'{"jsonrpc":"2.0","method":"$/cancelRequest","params":{"id":%d}}' % number


def canceled(number):
    return b'{"jsonrpc":"2.0","error":{"code":-32800,"message":"Canceled"},"id":%d}' % number


def nested(depth):
    return b'{"jsonrpc":"2.0","method":"m","params":%s%s}' % (b"[" * depth, b"]" * depth)


# Sessions, with the messages that answer each, and the status.
SHORT = {
    "a whole session": ([INITIALIZE, SHUTDOWN, EXIT], [INITIALIZED, SHUT_DOWN], 0),
    "a cancel, and one that comes too late": ([INITIALIZE, wait(3), cancel(3), cancel(3)], [INITIALIZED, canceled(3)], 1),
    "an exit that answers what waits": ([INITIALIZE, wait(4), wait(5), EXIT], [INITIALIZED, canceled(4), canceled(5)], 1),
    "a question to the editor, and its answer": ([INITIALIZE, ASK, FOLDERS], [INITIALIZED, ASKED, TOLD], 1),
    "no method, and no message": ([b'{"jsonrpc":"2.0","id":0}', b"[1]"], [
        b'{"jsonrpc":"2.0","error":{"code":-32601,"message":"Method not found","data":""},"id":0}',
        b'{"jsonrpc":"2.0","error":{"code":-32600,"message":"Invalid request"},"id":null}'], 1),
    "params of 126 arrays": ([nested(126)], [], 1),
    "params of 127 arrays": ([nested(127)], [PARSE_ERROR], 1),
}


def waits(count):
    """Waits of which four are polled and 1,024 more wait; the others are refused, and the exit cancels the rest."""
    return flood(lambda: numbered(3, 3 + count, wait), 1 + count + 1, [])


def notes(count):
    return flood(lambda: numbered(0, count, sessions.note), 2, [SHUT_DOWN])


def one_id(count):
    """Requests under one id: one waits, and those that come meanwhile are refused."""
    return flood(lambda: repeated(frame(wait(3)), count), 1 + count + 1, [])


def cancels(count):
    return flood(lambda: numbered(3, 3 + count, cancel), 2, [SHUT_DOWN])


def answers(count):
    return flood(lambda: numbered(0, count, sessions.response), 2, [SHUT_DOWN])


def unfit(count):
    """Commands whose params don't fit: each is refused."""
    def make(number):
        return sessions.request(number, b"workspace/executeCommand", b'{"command":[%d]}' % number)
    return flood(lambda: numbered(3, 3 + count, make), count + 2, [SHUT_DOWN])


def floats(count):
    """Messages with a float, each of which is answered to null."""
    body = b'{"jsonrpc":"2.0","method":"$/x","params":[1.5]}'
    return flood(lambda: repeated(frame(body), count), count + 2, [SHUT_DOWN])


def questions(count, late):
    """Commands that ask the editor, each of which is cancelled; the editor answers none of them, or all at the end."""
    def bodies():
        yield from numbered(3, 3 + count, lambda number: sessions.execute(number, b"ask", b""), pair=cancel)
        if late:
            yield from numbered(0, count, sessions.response)
    return flood(bodies, 2 * count + 2, [SHUT_DOWN])


def queue(count):
    """Notifications that wait behind 1,025 calls, which are polled one after the other, until the last of these is
    cancelled; each is greeted then."""
    def run(program):
        calls = range(3, 3 + 1025)
        pieces = itertools.chain([frame(INITIALIZE)], map(frame, map(wait, calls)),
                                 repeated(frame(sessions.INITIALIZED), count), map(frame, map(cancel, calls)),
                                 [frame(EXIT)])
        way = program[1:2] or ["serve"]
        return stream([program[0], *way, "1", "1"], pieces, 1 + len(calls) + count, [], 1)
    return run


def by_bytes(size, count):
    """Requests of an unknown method that come in pieces of this size, each by a write of its own."""
    def run(program):
        data = b"".join(frame(sessions.unknown(number)) for number in range(3, 3 + count))
        end = frame(SHUTDOWN) + frame(EXIT)
        pieces = itertools.chain([frame(INITIALIZE)], in_pieces(data + end, size))
        return stream(program, pieces, count + 2, [SHUT_DOWN], 0)
    return run


def long_heads(count):
    """Heads of 8,000 bytes in pieces of 16."""
    def run(program):
        head = b"Content-Length: %d\r\nX: %s\r\n\r\n" % (len(sessions.note(0)), b"x" * 7960)
        data = head + sessions.note(0)
        pieces = itertools.chain([frame(INITIALIZE)], (piece for _ in range(count) for piece in in_pieces(data, 16)))
        return stream(program, pieces, 1, [INITIALIZED], 1)
    return run


def unread(program):
    """A reader that doesn't read: the program waits, and holds no more for it. Then all is read. A thread that reads
    tries for a while to put what it read onto the full ring, which takes a processor."""
    count = 100_000
    with Fed(program) as server:
        server.feed(itertools.chain([frame(INITIALIZE)], numbered(3, 3 + count, sessions.unknown),
                                    [frame(SHUTDOWN), frame(EXIT)]))
        time.sleep(2)
        before = server.seconds()
        time.sleep(2)
        if "pump" not in program and server.seconds() - before > 0.1:
            raise Failure("FAILED: it runs while nobody reads")
        expect(server.counted(), count + 2, "messages")
        return server.ends(0)


def rows(full):
    gigabyte = 1_000_000_000
    yield Row("1 GB of letters", 4_000, 10, junk(b"x", gigabyte, 1))
    yield Row("1 GB of zeros", 4_000, 10, junk(b"\0", gigabyte, 1))
    # Each of them begins no head, and is answered.
    words = gigabyte // 14 if full else gigabyte // 140
    yield Row("{:,} times `Content-Length`".format(words), 4_000, words // 100_000,
              junk(b"Content-Length", words, words))
    yield Row("a head of 100 MB", 4_000, 10, junk(b"Content-Length: 5\r\nX: " + b"x" * 99_999_978, 1, 1))
    for length in (LONGEST - 1, LONGEST):
        yield Row("a body of {:,} bytes".format(length), 260_000, 10, one_body(length, "text", []))
    yield Row("a body of {:,} bytes".format(LONGEST + 1), 4_000, 5, one_body(LONGEST + 1, "text", [PARSE_ERROR]))
    yield Row("60 MiB of `[`", 200_000, 10, one_body(60 * MIB, "brackets", [PARSE_ERROR]))
    yield Row("a body of 64 MiB that never comes", 4_000, 1, announced)
    for mebibytes in (1, 4, 16, 64) if full else (1, 4):
        yield Row("a body of small objects, %d MiB" % mebibytes, 130_000 * mebibytes, 5 * mebibytes,
                  objects(mebibytes))
    yield Row("a body of small objects, 1 MiB, echoed", 250_000, 5, objects_again)
    yield Row("1,000,000 waits", 8_000, 60, waits(1_000_000))
    yield Row("1,000,000 notifications", 4_000, 30, notes(1_000_000))
    yield Row("1,000,000 requests under one id", 4_000, 30, one_id(1_000_000))
    yield Row("1,000,000 cancels of what isn't asked", 4_000, 30, cancels(1_000_000))
    yield Row("1,000,000 answers that nobody asked for", 4_000, 30, answers(1_000_000))
    yield Row("1,000,000 commands whose params don't fit", 4_000, 30, unfit(1_000_000))
    yield Row("1,000,000 messages with a float", 4_000, 30, floats(1_000_000))
    for late, name in ((False, "and never answered"), (True, "and answered too late")):
        # Of a question that was cancelled the desk keeps that it was asked, and then what was answered.
        yield Row("100,000 questions to the editor, cancelled %s" % name, 60_000, 30, questions(100_000, late))
    size = 900_000 if full else 200_000
    yield Row("a cancel that frees a queue of {:,}".format(size), 1_900 * size // 1000, 60, queue(size))
    for name in SHORT:
        yield Row("%s in pieces" % name, 4_000, 5, in_all_pieces(name))
    yield Row("one byte at a time", 4_000, 30, by_bytes(1, 10_000))
    yield Row("an unfinished head of 8,191 bytes, one at a time", 4_000, 5, unfinished(8_191))
    yield Row("2,000 heads of 8,000 bytes in pieces of 16", 4_000, 30, long_heads(2_000))
    yield Row("a reader that does not read", 4_000, 10, unread)
