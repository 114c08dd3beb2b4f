"""Bytes that wait until they can be written, and bytes that can be read, without a wait."""
import os
from collections import deque
from itertools import islice
from typing import Optional

_PIECE = 1 << 16
_MOST_PIECES = 64


def read_some(fd: int) -> Optional[bytes]:
    """The next bytes, none at the end or after a failure, and None where there is nothing yet."""
    try:
        return os.read(fd, _PIECE)
    except BlockingIOError:
        return None
    except OSError:
        return b""


class Outlet:
    """What waits to be written to an end of a pipe or a socket."""

    def __init__(self, fd: int) -> None:
        self.fd = fd
        self.size = 0
        self.is_broken = False
        self._pieces: deque = deque()
        os.set_blocking(fd, False)

    def put(self, piece: bytes) -> None:
        """Takes bytes. Where nobody reads any more they are thrown away."""
        if not self.is_broken:
            self._pieces.append(memoryview(piece))
            self.size += len(piece)

    def write(self) -> None:
        """Writes as much as can be written now."""
        while self._pieces:
            try:
                written = os.writev(self.fd, list(islice(self._pieces, _MOST_PIECES)))
            except BlockingIOError:
                return
            except OSError:
                return self.close()
            self._drop(written)

    def _drop(self, count: int) -> None:
        self.size -= count
        while count:
            first = self._pieces.popleft()
            if len(first) > count:
                self._pieces.appendleft(first[count:])
                return
            count -= len(first)

    def close(self) -> None:
        """Throws away what waits, and all that comes."""
        self.is_broken = True
        self.size = 0
        self._pieces.clear()
