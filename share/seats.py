"""The ends that the loop reads: an editor's connection, and the output of a child."""
import os
import select
import socket
import time
from typing import Iterator, Optional, Union

from ends import Child
from frames import BODY_LIMIT, Fault, FrameReader, frame
from messages import Code, Kind, Unfit, failure, kind_of, tidy
from queues import Outlet, read_some
from values import NotJson, TooDeep, read, restore, write

_TO_CLOSE = 3.0
_TO_BE_READ = 2.0


class Inlet:
    """What is read frame by frame."""

    def __init__(self, fd: int, limit: int = BODY_LIMIT) -> None:
        self.fd = fd
        self.is_ended = False
        self._reader = FrameReader(limit)
        os.set_blocking(fd, False)

    def items(self) -> Iterator[Union[bytes, Fault]]:
        """The bodies and faults that the next bytes tell. A body that is too long ends it, as the
        end of input does.
        """
        piece = read_some(self.fd)
        if piece is None:
            return
        self._reader.feed(piece)
        yield from self._reader.items()
        self.is_ended = not piece or self._reader.is_spent


class Seat:
    """An editor's connection, which has no side before its first frame. One too many never has one,
    and is told so.
    """

    def __init__(self, connection: socket.socket) -> None:
        self.side: Optional[int] = None
        self.inlet = Inlet(connection.fileno())
        self.outlet = Outlet(connection.fileno())
        self.since = time.monotonic()
        self.is_late = False
        self._unread_since: Optional[float] = None
        self._closing_since: Optional[float] = None
        self._connection = connection

    @property
    def fd(self) -> int:
        """The number by which it is watched."""
        return self.inlet.fd

    @property
    def is_closing(self) -> bool:
        """Whether it is let go once what was sent is written."""
        return self._closing_since is not None

    @property
    def is_done(self) -> bool:
        """Whether it can be closed: all is written, or has waited long enough."""
        if self._closing_since is None:
            return False
        return not self.outlet.size or self.is_late or time.monotonic() - self._closing_since > _TO_CLOSE

    def may_read(self, is_so: bool) -> bool:
        """Notes whether it may be read now, and says so."""
        self._unread_since = None if is_so else self._unread_since or time.monotonic()
        return is_so

    @property
    def is_deserted(self) -> bool:
        """Whether the other end has closed, of a connection that hasn't been read for some time."""
        if self._unread_since is None or time.monotonic() - self._unread_since < _TO_BE_READ:
            return False
        poll = select.poll()
        poll.register(self.fd, select.POLLRDHUP)
        return bool(poll.poll(0))

    def let_go(self) -> None:
        """Lets it go once what was sent is written."""
        self._closing_since = self._closing_since or time.monotonic()

    def close(self) -> None:
        """Closes the connection at once."""
        self._connection.close()

    def refuse(self, body: bytes) -> None:
        """Answers the first request of an editor that has no side."""
        try:
            message = tidy(read(body))
        except (NotJson, Unfit, TooDeep):
            return self.let_go()
        if kind_of(message) is Kind.REQUEST:
            answer = failure(message["id"], Code.INTERNAL_ERROR, "lsp_share has no place left for an editor")
            self.outlet.put(frame(restore(write(answer))))
            self.let_go()


class ChildEnds:
    """The input and the output of a child."""

    def __init__(self, child: Child, limit: int = BODY_LIMIT) -> None:
        self.child = child
        self.inlet = Inlet(child.output, limit)
        self.outlet = Outlet(child.input)

    def finish_input(self) -> None:
        """Closes the input once all is written."""
        if not self.outlet.size and not self.outlet.is_broken:
            self.outlet.close()
            self.child.close_input()
