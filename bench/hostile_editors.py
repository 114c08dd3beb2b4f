"""Many editors before one server, through the proxy: each answer goes once, to its asker."""
import collections
import itertools
import random

from hostile_input import expect
from hostile_memory import refused
from hostile_run import Failure, Fed, Row, frame, repeated

EDITORS = 64
SERVER = 0
# How many requests wait for an answer at most, of each direction.
OPEN = 2_000
EXIT = b'{"jsonrpc":"2.0","method":"exit"}'
REQUEST = b'{"id":%d,"jsonrpc":"2.0","method":"x"}'
RESPONSE = b'{"id":%d,"jsonrpc":"2.0","result":%d}'
CANCEL = b'{"jsonrpc":"2.0","method":"$/cancelRequest","params":{"id":%d}}'
REFUSED = b'{"error":{"code":-32600,"message":"Invalid request"},"id":%d,"jsonrpc":"2.0"}'
UNANSWERED = b'{"error":{"code":-32603,"message":"Internal error"},"id":%d,"jsonrpc":"2.0"}'
NOTE = b'{"jsonrpc":"2.0","method":"n"}'


def carried(way, side, message):
    return frame(b'{"jsonrpc":"2.0","method":"proxy/%s","params":{"message":%s,"side":%d}}' % (way, message, side))


class Model:
    """What each side of the proxy knows, and what the proxy has to send: side k + 1 is editor k."""

    def __init__(self, seed):
        self.dice = random.Random(seed)
        self.drawn = 0
        # What the server has to answer, and the editors, by the ids that were drawn.
        self.asked = {}
        self.requested = {}
        # An editor's requests without an answer, by its side and its ids.
        self.open = {}
        self.here = list(range(1, EDITORS + 1))
        self.numbers = 0

    def draw(self):
        self.drawn += 1
        return self.drawn - 1

    def one_of(self, table):
        """A key of the table, in no order that is seen: it is the oldest or the newest."""
        return next(iter(table)) if self.dice.random() < 0.5 else next(reversed(table))

    # Each of these gives the side that sends, its message, and what the proxy sends for it.

    def editor_asks(self):
        side = self.dice.choice(self.here)
        self.numbers += 1
        drawn = self.draw()
        self.asked[drawn] = side, self.numbers
        self.open[side, self.numbers] = drawn
        return side, REQUEST % self.numbers, [(SERVER, REQUEST % drawn)]

    def editor_asks_again(self):
        side, number = self.one_of(self.open)
        return side, REQUEST % number, [(side, REFUSED % number)] if side in self.here else []

    def server_answers(self):
        drawn = self.one_of(self.asked)
        side, number = self.asked.pop(drawn)
        del self.open[side, number]
        return SERVER, RESPONSE % (drawn, drawn), [(side, RESPONSE % (number, drawn))] if side in self.here else []

    def server_answers_twice(self):
        drawn = self.dice.randrange(self.drawn)
        if drawn in self.asked:
            return self.server_answers()
        return SERVER, RESPONSE % (drawn, drawn), []

    def editor_cancels(self):
        side, number = self.one_of(self.open)
        drawn = self.open[side, number]
        return side, CANCEL % number, [(SERVER, CANCEL % drawn)] if side in self.here else []

    def editor_cancels_what_is_not_asked(self):
        return self.dice.choice(self.here), CANCEL % (1 << 30), []

    def server_asks(self):
        drawn, side = self.draw(), self.here[0]
        self.numbers += 1
        self.requested[drawn] = side, self.numbers
        return SERVER, REQUEST % self.numbers, [(side, REQUEST % drawn)]

    def editor_answers(self):
        drawn = self.one_of(self.requested)
        side, number = self.requested.pop(drawn)
        return side, RESPONSE % (drawn, number), [(SERVER, RESPONSE % (number, number))]

    def editor_answers_what_it_was_not_asked(self):
        """A request of another editor, or none."""
        drawn = self.one_of(self.requested)
        others = [side for side in self.here if side != self.requested[drawn][0]]
        return self.dice.choice(others), RESPONSE % (drawn, 0), []

    def server_cancels(self):
        drawn = self.one_of(self.requested)
        side, number = self.requested[drawn]
        return SERVER, CANCEL % number, [(side, CANCEL % drawn)]

    def server_tells(self):
        return SERVER, NOTE, [(side, NOTE) for side in self.here]

    def editor_tells(self):
        return self.dice.choice(self.here), NOTE, [(SERVER, NOTE)]

    def editor_leaves(self):
        side = self.here.pop(self.dice.choice((0, -1)))
        left = [drawn for drawn, (asked, _) in self.requested.items() if asked == side]
        return side, EXIT, [(SERVER, UNANSWERED % self.requested.pop(drawn)[1]) for drawn in left]

    def event(self):
        """One of these, as often as the next two tables say."""
        chance = self.dice.random()
        if chance < 0.02 and self.open:
            return self.editor_asks_again()
        if chance < 0.04 and self.drawn:
            return self.server_answers_twice()
        if chance < 0.07 and self.open:
            return self.editor_cancels()
        if chance < 0.09:
            return self.editor_cancels_what_is_not_asked()
        if chance < 0.11 and self.requested:
            return self.editor_answers_what_it_was_not_asked()
        if chance < 0.13 and self.requested:
            return self.server_cancels()
        if chance < 0.131:
            return self.server_tells()
        if chance < 0.15:
            return self.editor_tells()
        if chance < 0.70:
            few = len(self.asked) < OPEN and self.dice.random() < 0.52
            return self.editor_asks() if few or not self.asked else self.server_answers()
        few = len(self.requested) < OPEN and self.dice.random() < 0.52
        return self.server_asks() if few or not self.requested else self.editor_answers()


def events(model, count, expected, server, marks):
    """The messages that come, a thousand a piece; what has to be sent for each stands in `expected` before. An editor
    leaves after each 32nd of the events, until half are gone."""
    for batch in range(0, count, 1000):
        came, wanted = [], []
        for number in range(batch, min(batch + 1000, count)):
            leaves = number % (count // 33) == count // 33 - 1 and len(model.here) > EDITORS // 2
            side, message, sent = model.editor_leaves() if leaves else model.event()
            came.append(carried(b"in", side, message))
            wanted += [carried(b"out", to, each) for to, each in sent]
        if batch == count // 5000 * 1000:
            server.look()
            marks.append(server.peak)
        expected.append(b"".join(wanted))
        yield b"".join(came)


def compare(server, expected):
    """What the proxy writes is what is expected, to its end."""
    due, at = b"", 0
    for piece in server.pieces():
        due = due[at:]
        at = 0
        while len(due) < len(piece) and expected:
            due += expected.popleft()
        if due[:len(piece)] != piece:
            same = next(place for place in range(len(piece)) if due[place:place + 1] != piece[place:place + 1])
            raise Failure("FAILED: wanted %r, got %r" % (due[max(0, same - 200):same + 100],
                                                         piece[max(0, same - 200):same + 100]))
        at = len(piece)
    rest = due[at:] + b"".join(expected)
    if rest:
        raise Failure("FAILED: %d bytes are missing: %r" % (len(rest), rest[:200]))


def together(count):
    def run(program):
        expected, marks = collections.deque(), []
        with Fed([*program, str(EDITORS)]) as server:
            server.feed(events(Model(1), count, expected, server, marks))
            compare(server, expected)
            found = server.ends(0)
        if found.kilobytes > marks[0] * 1.25 + 500:
            raise Failure("FAILED: memory grew from %d KiB to %d" % (marks[0], found.kilobytes))
        return found
    return run


def all_leave(program):
    """Every editor asks, and leaves; the last lets the server go. Nobody hears of the answers then."""
    model, sent, wanted = Model(2), [], []
    for _ in range(10_000):
        side, message, out = model.editor_asks()
        sent.append(carried(b"in", side, message))
        wanted += [carried(b"out", *each) for each in out]
    sent += [carried(b"in", side, EXIT) for side in model.here]
    ended = model.draw()
    wanted.append(carried(b"out", SERVER, b'{"id":%d,"jsonrpc":"2.0","method":"shutdown"}' % ended))
    sent += [carried(b"in", SERVER, RESPONSE % (drawn, drawn)) for drawn in model.asked]
    sent += [carried(b"in", side, REQUEST % 0) for side in model.here]
    sent.append(carried(b"in", SERVER, RESPONSE % (ended, 0)))
    wanted.append(carried(b"out", SERVER, EXIT))
    with Fed([*program, str(EDITORS)]) as server:
        server.feed(sent)
        compare(server, collections.deque(wanted))
        return server.ends(0)


def few_events(count):
    """What comes in the first of the events."""
    model = Model(3)
    return b"".join(carried(b"in", *model.event()[:2]) for _ in range(count))


def junk(unit, count):
    """A stretch of so many such bytes, and then a message, which passes."""
    def run(program):
        with Fed([*program, str(EDITORS)]) as server:
            message = carried(b"in", 1, REQUEST % 7)
            server.feed(itertools.chain(repeated(unit, count), [b"\r\n\r\n", message]))
            compare(server, collections.deque([carried(b"out", SERVER, REQUEST % 0)]))
            return server.ends(0)
    return run


def body(text):
    """A body that tells no message of an editor, and then one that does."""
    def run(program):
        with Fed([*program, str(EDITORS)]) as server:
            server.feed([frame(text()), carried(b"in", 1, REQUEST % 7)])
            compare(server, collections.deque([carried(b"out", SERVER, REQUEST % 0)]))
            return server.ends(0)
    return run


def broadcasts(count, length):
    """Notifications of the server of so many bytes, each to all editors."""
    def run(program):
        note = b'{"jsonrpc":"2.0","method":"n","params":["%s"]}' % (b"x" * length)
        came = carried(b"in", SERVER, note)
        sent = b"".join(carried(b"out", side, note) for side in range(1, EDITORS + 1))
        with Fed([*program, str(EDITORS)]) as server:
            server.feed(repeated(came, count))
            expect(server.counted(), EDITORS * count, "messages")
            expect(server.end[-1000:], sent[-1000:], "the last")
            return server.ends(0)
    return run


def rows(_):
    yield Row("proxy: 64 editors, 1,000,000 messages", 8_000, 60, together(1_000_000))
    yield Row("proxy: all editors ask, and leave", 8_000, 5, all_leave)
    yield Row("proxy: 1 GB of letters", 4_000, 10, junk(b"x", 1_000_000_000))
    yield Row("proxy: 1 GB of zeros", 4_000, 10, junk(b"\0", 1_000_000_000))
    yield Row("proxy: 60 MiB of `[`", 200_000, 10, body(lambda: b"[" * (60 << 20)))
    yield Row("proxy: a body of small objects, 1 MiB", 260_000, 5,
              body(lambda: b"[" + b",".join([b'{"a":0}'] * (1 << 17)) + b"]"))
    yield Row("proxy: 100 notifications of 1 MB to 64 editors", 200_000, 60, broadcasts(100, 1_000_000))
    for name, alone in (("each growth refused", True), ("each growth refused with all later ones", False)):
        yield Row("proxy: 64 editors, 60 messages, %s" % name, 0, 120, refused(few_events(60), alone, [str(EDITORS)]))
