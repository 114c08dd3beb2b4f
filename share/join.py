"""What an editor starts in place of the server: it moves standard input and output to and from
lsp_share's socket.
"""
import os
import select
import socket
import sys
import time
from typing import Optional

from queues import read_some

_HIGH = 1 << 20
# A pipe that can be written takes so many bytes without a wait.
_PIECE = select.PIPE_BUF
_AFTER_INPUT = 10.0
_TO_CONNECT = 10.0


class Join:
    """Standard input and output, and the connection."""

    def __init__(self, connection: socket.socket) -> None:
        connection.setblocking(False)
        self._connection = connection
        self._up = bytearray()
        self._down = bytearray()
        self._has_input = True
        self._has_connection = True
        self._limit: Optional[float] = None

    def run(self) -> None:
        """Moves bytes until the connection has ended and all of it is written, or some time after
        the input's end.
        """
        while self._has_connection or self._down:
            if self._limit is not None and time.monotonic() > self._limit:
                return
            for fd, events in self._poll():
                self._move(fd, events)

    def _poll(self) -> list[tuple[int, int]]:
        poll = select.poll()
        if self._has_input and len(self._up) < _HIGH:
            poll.register(0, select.POLLIN)
        reads = select.POLLIN if self._has_connection and len(self._down) < _HIGH else 0
        if self._has_connection and (reads or self._up):
            poll.register(self._connection, reads | (select.POLLOUT if self._up else 0))
        if self._down:
            poll.register(1, select.POLLOUT)
        return poll.poll(None if self._limit is None else 1000)

    def _move(self, fd: int, events: int) -> None:
        if fd == 0:
            self._read_input()
        elif fd == 1:
            del self._down[:os.write(1, self._down[:_PIECE])]
        else:
            if events & select.POLLOUT:
                self._write_up()
            if events & ~select.POLLOUT:
                self._read_down()

    def _read_input(self) -> None:
        piece = read_some(0)
        if piece:
            self._up += piece
            self._write_up()
        elif piece is not None:
            self._has_input = False
            self._limit = time.monotonic() + _AFTER_INPUT
            self._write_up()

    def _write_up(self) -> None:
        try:
            if self._up:
                del self._up[:self._connection.send(self._up)]
            if not self._has_input and not self._up:
                self._connection.shutdown(socket.SHUT_WR)
        except BlockingIOError:
            pass
        except OSError:
            self._up.clear()
            self._has_input = False

    def _read_down(self) -> None:
        piece = read_some(self._connection.fileno())
        if piece:
            self._down += piece
        elif piece is not None:
            self._has_connection = False


def join(words: list[str]) -> int:
    """The program lsp_join."""
    if len(words) != 1:
        print("Usage: lsp_join SOCKET", file=sys.stderr)
        return 2
    connection = socket.socket(socket.AF_UNIX)
    connection.settimeout(_TO_CONNECT)
    try:
        connection.connect(words[0])
    except OSError as why:
        print("lsp_join: %s: %s" % (words[0], why), file=sys.stderr)
        return 69
    try:
        Join(connection).run()
    except (BrokenPipeError, KeyboardInterrupt):
        pass
    return 0
