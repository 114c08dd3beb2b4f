"""Tests of frames."""
import random
import unittest

from frames import BODY_LIMIT, HEAD_LIMIT, Fault, FrameReader, frame


def _items(data, cuts=()):
    reader, found, start = FrameReader(), [], 0
    for cut in [*sorted(cuts), len(data)]:
        reader.feed(data[start:cut])
        found += list(reader.items())
        start = cut
    return found


class Frames(unittest.TestCase):
    """What is found in bytes."""

    def test_however_cut(self):
        data = frame(b"{}") + b"Content-Type: x\r\nCONTENT-LENGTH:  3 \r\n\r\nabc" + b"no length\r\n\r\n" + frame(b"")
        wanted = [b"{}", b"abc", Fault.NO_LENGTH, b""]
        self.assertEqual(_items(data), wanted)
        self.assertEqual(_items(data, range(len(data))), wanted)
        random.seed(7)
        for _ in range(50):
            self.assertEqual(_items(data, random.sample(range(len(data)), 5)), wanted)

    def test_lengths_that_differ(self):
        self.assertEqual(_items(b"Content-Length: 1\r\nContent-Length: 2\r\n\r\n"), [Fault.NO_LENGTH])
        self.assertEqual(_items(b"Content-Length: 1\r\nContent-Length: 1\r\n\r\nx"), [b"x"])
        self.assertEqual(_items(b"Content-Length: -1\r\n\r\n"), [Fault.NO_LENGTH])

    def test_long_head_is_passed_over(self):
        for cuts in ((), (HEAD_LIMIT + 1,), (HEAD_LIMIT + 5,), range(HEAD_LIMIT + 90)):
            found = _items(b"x" * (HEAD_LIMIT + 40) + frame(b"{}"), cuts)
            self.assertEqual((found[0], found[-1]), (Fault.LONG_HEAD, b"{}"))

    def test_long_body_is_the_end(self):
        data = b"Content-Length: %d\r\n\r\n" % (BODY_LIMIT + 1)
        self.assertEqual(_items(data + frame(b"{}"), [len(data)]), [Fault.LONG_BODY])
        reader = FrameReader()
        reader.feed(b"Content-Length: %d\r\n\r\n" % BODY_LIMIT)
        self.assertEqual((list(reader.items()), reader.is_spent), ([], False))

    def test_line_before_the_name(self):
        self.assertEqual(_items(b"a banner\nContent-Length: 2\r\n\r\n{}"), [b"{}"])


if __name__ == "__main__":
    unittest.main()
