"""The loop: moves bytes between the editors' sockets, the proxy and the server, until there is a
reason to end.
"""
import selectors
import time
from enum import Enum
from functools import partial
from typing import Any, Callable, Optional

from ends import Child, Listener, Signals
from frames import BODY_LIMIT, Fault, frame
from queues import read_some
from seats import ChildEnds, Seat
from switch import Switch

# Where so many bytes wait, what makes more of them isn't read.
_HIGH = 64 << 10
# So many bytes may wait for an editor that doesn't read, beside one that does.
_MOST_UNREAD = 8 << 20
_MOST_SEATS = 256
_LOOK = 0.5
_SOON = 0.02
_LAST_WORDS = 1.0
_TO_BEGIN = 60.0
_READ, _WRITE = selectors.EVENT_READ, selectors.EVENT_WRITE


class Reason(Enum):
    """Why the loop ended."""

    SIGNAL = "a signal came"
    SERVER = "the server has ended"
    PROXY = "the proxy has ended"
    DEAF = "the server didn't end"


class Loop:
    """All ends, and the switch between them."""

    def __init__(self, editors: int, wait: float, listener: Listener, signals: Signals, say: Callable[[str], None]) -> None:
        self.say = say
        self._wait = wait
        self._listener = listener
        self._signals = signals
        self._switch = Switch(editors, self)
        self._seats: dict[int, Seat] = {}
        self._sides: dict[int, Seat] = {}
        self._deadline: Optional[float] = None
        self._ended_since: Optional[float] = None
        self._selector = selectors.DefaultSelector()
        self._watched: dict[int, int] = {}

    def run(self, server: Child, proxy: Child) -> Reason:
        """Carries until there is a reason to end, says what is left to say, and closes every
        socket.
        """
        # The proxy may put a longer id in the place of a shorter one.
        self._server, self._proxy = ChildEnds(server), ChildEnds(proxy, 2 * BODY_LIMIT)
        try:
            reason = self._reason()
            while reason is None:
                self._turn(_LOOK)
                reason = self._reason()
            self._watch(self._listener.socket.fileno(), 0)
            self._listener.close()
            self._end(reason)
            return reason
        finally:
            for seat in self._seats.values():
                seat.close()
            self._selector.close()

    @property
    def have_all_left(self) -> bool:
        """Whether editors have come, and all of them have gone."""
        return self._deadline is not None

    # ---- Where the switch sends.

    def to_proxy(self, body: bytes) -> None:
        """Sends a body to the proxy."""
        self._proxy.outlet.put(frame(body))

    def to_server(self, body: bytes) -> None:
        """Sends a body to the server."""
        self._server.outlet.put(frame(body))

    def to_editor(self, side: int, body: bytes) -> None:
        """Sends a body to an editor. One that is too far behind is let go, once the switch is done.
        """
        seat = self._sides.get(side)
        if seat is None or seat.is_late or seat.is_closing:
            return
        if seat.outlet.size > _MOST_UNREAD:
            self.say("editor %d doesn't read, and is let go" % side)
            seat.is_late = True
        else:
            seat.outlet.put(frame(body))

    def close_editor(self, side: int) -> None:
        """Lets an editor go, once it has what was sent."""
        self._sides[side].let_go()

    def all_left(self) -> None:
        """Nobody is left, and the server has so long to end."""
        self._deadline = time.monotonic() + self._wait

    # ---- Ends.

    def _reason(self) -> Optional[Reason]:
        now = time.monotonic()
        if self._signals.caught() is not None:
            return Reason.SIGNAL
        if self._proxy.inlet.is_ended:
            return Reason.PROXY
        if self._ended_since is None and self._server.child.is_ended:
            self._ended_since = now
        # What a server started may hold its output open.
        if self._server.inlet.is_ended or (self._ended_since is not None and now - self._ended_since > _LOOK):
            return Reason.SERVER
        return Reason.DEAF if self._deadline is not None and now > self._deadline else None

    def _end(self, reason: Reason) -> None:
        """What is left to say is said, within a limit."""
        if reason is Reason.SIGNAL:
            return
        limit = time.monotonic() + _LAST_WORDS
        while not self._proxy.inlet.is_ended and time.monotonic() < limit:
            self._turn(_SOON)
            self._proxy.finish_input()
        if not self.have_all_left:
            self._switch.ended(reason.value)
        for seat in self._seats.values():
            seat.let_go()
        while self._seats and time.monotonic() < limit + _LAST_WORDS:
            self._turn(_SOON)

    def _let_go(self) -> None:
        """Lets editors go that are late, have said nothing for long, or have all that was sent."""
        now = time.monotonic()
        for seat in list(self._seats.values()):
            is_silent = seat.side is None and now - seat.since > _TO_BEGIN
            if not seat.is_closing and (seat.is_late or is_silent or seat.is_deserted):
                self._leave(seat)
            if seat.is_done:
                self._watch(seat.fd, 0)
                del self._seats[seat.fd]
                seat.close()

    def _leave(self, seat: Seat) -> None:
        if seat.side is not None:
            self._switch.leave(seat.side)
        seat.let_go()

    # ---- One turn.

    def _turn(self, seconds: float) -> None:
        self._watch_all()
        for key, mask in self._selector.select(seconds):
            if key.data is not None and mask & _READ:
                key.data()
        self._write()
        self._let_go()

    def _watch(self, fd: int, mask: int, take: Optional[Callable[[], Any]] = None) -> None:
        """Waits for this at that end. `take` is called where it can be read."""
        known = self._watched.get(fd, 0)
        if known == mask:
            return
        if not mask:
            self._selector.unregister(fd)
        elif known:
            self._selector.modify(fd, mask, take)
        else:
            self._selector.register(fd, mask, take)
        self._watched[fd] = mask

    def _watch_all(self) -> None:
        is_proxy_full = self._proxy.outlet.size >= _HIGH
        is_server_full = self._server.outlet.size >= _HIGH
        # The server is heard as fast as the fastest editor reads.
        hears = not self._seats or any(seat.outlet.size < _HIGH for seat in self._seats.values())
        for seat in self._seats.values():
            is_open = seat.outlet.size < _HIGH and not (is_proxy_full or is_server_full)
            reads = seat.may_read(is_open) and not seat.is_closing
            self._watch(seat.fd, (_READ if reads else 0) | (_WRITE if seat.outlet.size else 0), partial(self._take_editor, seat))
        for ends, take, reads in ((self._proxy, self._take_proxy, True),
                                  (self._server, self._take_server, not is_proxy_full and hears)):
            self._watch(ends.inlet.fd, _READ if reads and not ends.inlet.is_ended else 0, take)
            self._watch(ends.outlet.fd, _WRITE if ends.outlet.size else 0)
        self._watch(self._signals.fd, _READ, partial(read_some, self._signals.fd))
        if self._listener.is_open:
            self._watch(self._listener.socket.fileno(), _READ if len(self._seats) < _MOST_SEATS else 0, self._join)

    def _write(self) -> None:
        self._proxy.outlet.write()
        self._server.outlet.write()
        for seat in self._seats.values():
            seat.outlet.write()

    # ---- What comes.

    def _join(self) -> None:
        connection = self._listener.accept()
        if connection is None:
            return
        seat = Seat(connection)
        self._seats[seat.fd] = seat

    def _give_side(self, seat: Seat) -> None:
        """An editor takes a side with its first frame: whoever only looks whether somebody listens
        takes none.
        """
        seat.side = self._switch.join()
        if seat.side is not None:
            self._sides[seat.side] = seat

    def _take_editor(self, seat: Seat) -> None:
        for item in seat.inlet.items():
            if seat.side is None:
                self._give_side(seat)
            if seat.side is None:
                self.say("one editor too many")
                seat.refuse(item if isinstance(item, bytes) else b"")
            elif isinstance(item, Fault):
                self._switch.from_fault(seat.side, item.value)
            else:
                self._switch.from_editor(seat.side, item)
        if seat.inlet.is_ended:
            self._leave(seat)

    def _take_server(self) -> None:
        for item in self._server.inlet.items():
            if isinstance(item, Fault):
                self.say("the server wrote %s" % item.value)
            else:
                self._switch.from_server(item)

    def _take_proxy(self) -> None:
        for item in self._proxy.inlet.items():
            if isinstance(item, bytes):
                self._switch.from_proxy(item)
