"""Frames: a head with `Content-Length: N`, an empty line, and a body of N bytes."""
import re
from enum import Enum
from typing import Iterator, Optional, Union

HEAD_LIMIT = 8192
BODY_LIMIT = 64 << 20
_EMPTY_LINE = b"\r\n\r\n"
_NAME = b"content-length"
# A head in the form in which most are written, which is read faster.
_PLAIN_HEAD = re.compile(rb"Content-Length: ([0-9]{1,18})\r\n\r\n")
_LENGTH = re.compile(rb"(?im)content-length:[ \t]*([0-9]{1,18})[ \t]*\r?$")


class Fault(Enum):
    """What is wrong with a head."""

    NO_LENGTH = "a head without one length"
    LONG_HEAD = "a head that is too long"
    LONG_BODY = "a body that is too long"


def frame(body: bytes) -> bytes:
    """The frame of a body."""
    return b"Content-Length: %d\r\n\r\n%b" % (len(body), body)


def _length_of(head: bytes) -> Optional[int]:
    """The one length that a head gives."""
    lengths = {int(text) for text in _LENGTH.findall(head)}
    return lengths.pop() if len(lengths) == 1 else None


class FrameReader:
    """Finds bodies and faults in bytes, however they are cut into pieces."""

    def __init__(self, limit: int = BODY_LIMIT) -> None:
        self._limit = limit
        self._buffer = bytearray()
        self._length: Optional[int] = None
        # After a LONG_BODY nothing more comes.
        self.is_spent = False

    def feed(self, piece: bytes) -> None:
        """Takes the next bytes."""
        if not self.is_spent:
            self._buffer += piece

    @property
    def is_inside(self) -> bool:
        """Whether a frame has begun and hasn't ended."""
        return bool(self._buffer) or self._length is not None

    def items(self) -> Iterator[Union[bytes, Fault]]:
        """What the bytes taken so far hold, each once."""
        item = self._next()
        while item is not None:
            yield item
            item = self._next()

    def _next(self) -> Union[bytes, Fault, None]:
        fault = self._take_head() if self._length is None else None
        return fault if fault is not None else self._take_body()

    def _take_head(self) -> Optional[Fault]:
        if not self._buffer:
            return None
        length = self._plain_length()
        if length is not None:
            return self._expect(length)
        end = self._buffer.find(_EMPTY_LINE, 0, HEAD_LIMIT + len(_EMPTY_LINE))
        if end < 0:
            if len(self._buffer) <= HEAD_LIMIT:
                return None
            self._skip_to_name()
            return Fault.LONG_HEAD
        length = _length_of(bytes(self._buffer[:end]))
        del self._buffer[:end + len(_EMPTY_LINE)]
        return Fault.NO_LENGTH if length is None else self._expect(length)

    def _plain_length(self) -> Optional[int]:
        """Takes a head in the plain form."""
        found = _PLAIN_HEAD.match(self._buffer)
        if found is None:
            return None
        length, end = int(found[1]), found.end()
        # While a match stands, the buffer can't be cut.
        del found
        del self._buffer[:end]
        return length

    def _expect(self, length: int) -> Optional[Fault]:
        """A body of so many bytes comes next."""
        if length > self._limit:
            self._buffer.clear()
            self.is_spent = True
            return Fault.LONG_BODY
        self._length = length
        return None

    def _skip_to_name(self) -> None:
        """Drops what can't belong to the next head: all that stands before its name, or before what
        may begin it.
        """
        found = self._buffer.lower().find(_NAME, 1)
        del self._buffer[:found if found > 0 else len(self._buffer) - len(_NAME) + 1]

    def _take_body(self) -> Optional[bytes]:
        if self._length is None or len(self._buffer) < self._length:
            return None
        body = bytes(self._buffer[:self._length])
        del self._buffer[:self._length]
        self._length = None
        return body
