"""The two programs but for their names: what their arguments mean, and how they end."""
import os
from dataclasses import dataclass
from enum import IntEnum
from typing import BinaryIO, Optional

from ends import Child, Listener, Signals, Unusable
from loop import Loop, Reason

USAGE = """\
usage: lsp_share SOCKET EDITORS -- SERVER ARGS..

Starts a language server, and lets up to EDITORS editors, from 1 to 64, join it at SOCKET with `lsp_join SOCKET`."""
_MOST_EDITORS = 64
_WAIT = 5.0


class Status(IntEnum):
    """How lsp_share ends. A signal ends it with 128 and the signal's number."""

    DONE = 0
    BROKEN = 1
    USAGE = 2
    NO_SOCKET = 3
    NO_PROGRAM = 69


@dataclass(frozen=True)
class Arguments:
    """What is asked for."""

    socket: str
    editors: int
    server: list[str]


def say(words: str) -> None:
    """Says something on standard error, if anybody is there."""
    try:
        os.write(2, ("lsp_share: %s\n" % words).encode("utf-8", "backslashreplace"))
    except OSError:
        pass


def arguments_of(words: list[str]) -> Optional[Arguments]:
    """What these arguments ask for, if they are of the program's form."""
    if len(words) < 4 or words[2] != "--" or not words[0] or not words[3]:
        return None
    number = words[1]
    if not (number.isascii() and number.isdigit() and len(number) < 9 and 1 <= int(number) <= _MOST_EDITORS):
        return None
    return Arguments(words[0], int(number), words[3:])


def _start(command: list[str], stderr: Optional[BinaryIO] = None) -> Child:
    try:
        return Child(command, stderr)
    except (OSError, ValueError) as why:
        raise Unusable("%s can't be started: %s" % (command[0], why)) from None


def _open_log(path: str) -> BinaryIO:
    """The file that the server's standard error goes to."""
    flags = os.O_WRONLY | os.O_CREAT | os.O_TRUNC | os.O_NOFOLLOW | os.O_CLOEXEC
    try:
        return os.fdopen(os.open(path, flags, 0o600), "wb")
    except OSError as why:
        raise Unusable("%s can't be written: %s" % (path, why)) from None


def wait_of(text: Optional[str]) -> Optional[float]:
    """So many seconds a server has to end, if the text says so many."""
    try:
        seconds = _WAIT if text is None else float(text)
    except ValueError:
        return None
    return seconds if 0 <= seconds < 1e6 else None


class Share:
    """All that is begun, and has to be ended however the program ends."""

    def __init__(self, arguments: Arguments, proxy: str, wait: float) -> None:
        self._arguments = arguments
        self._wait = wait
        self._proxy_command = [proxy, str(arguments.editors)]
        self._signals = Signals()
        self._children: list[Child] = []

    def run(self) -> int:
        """Runs, and gives the status."""
        try:
            listener = Listener(self._arguments.socket)
        except Unusable as why:
            say(str(why))
            return Status.NO_SOCKET
        try:
            return self._run_at(listener)
        except Unusable as why:
            say(str(why))
            return Status.NO_PROGRAM
        finally:
            listener.close()
            for child in self._children:
                child.finish()

    def _run_at(self, listener: Listener) -> int:
        loop = Loop(self._arguments.editors, self._wait, listener, self._signals, say)
        with _open_log(listener.path + ".log") as log:
            self._children.append(_start(self._arguments.server, log))
        self._children.append(_start(self._proxy_command))
        reason = loop.run(*self._children)
        return self._status(reason, loop.have_all_left)

    def _status(self, reason: Reason, have_all_left: bool) -> int:
        server, proxy = [child.finish() for child in self._children]
        if reason is Reason.SIGNAL:
            return 128 + (self._signals.caught() or 0)
        if reason is Reason.SERVER and have_all_left and server == proxy == 0:
            return Status.DONE
        say("%s; the server's status is %d, the proxy's %d" % (reason.value, server, proxy))
        return Status.NO_PROGRAM if proxy == Status.NO_PROGRAM else Status.BROKEN


def share(words: list[str], proxy: str) -> int:
    """The program lsp_share, with the proxy's path."""
    arguments, wait = arguments_of(words), wait_of(os.environ.get("LSP_SHARE_WAIT"))
    if arguments is None or wait is None:
        say(USAGE)
        return Status.USAGE
    return Share(arguments, proxy, wait).run()
