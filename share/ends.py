"""Beginnings and ends: the server's and the proxy's processes, the socket, and signals. Every wait
has a limit.
"""
import fcntl
import os
import signal
import socket
import stat
import subprocess
import time
from contextlib import contextmanager
from typing import Any, Iterator, Optional

_STEP = 0.01
_PATIENCE = 1.0
# What fills a pipe is ahead of all that comes later, so a child's pipes hold less than they could.
_PIPE_SIZE = 32 << 10
# Python 3.9 doesn't name it.
_SET_PIPE_SIZE = getattr(fcntl, "F_SETPIPE_SZ", 1031)
# A fault of the program itself raises these. Blocked, they still end it then, and are seen where
# another sends them.
_FAULTS = {signal.SIGSEGV, signal.SIGBUS, signal.SIGFPE, signal.SIGILL}
_OTHERS = {signal.SIGKILL, signal.SIGSTOP, signal.SIGTSTP, signal.SIGTTIN, signal.SIGTTOU, signal.SIGCONT,
           signal.SIGCHLD, signal.SIGURG, signal.SIGWINCH, signal.SIGPIPE, signal.SIGXFSZ}


class Unusable(Exception):
    """The socket's path can't be had."""


class Signals:
    """The signals that end lsp_share. A byte comes through `fd` at each, and where a child ends."""

    def __init__(self) -> None:
        self._caught: Optional[int] = None
        self.fd, self._write_end = os.pipe()
        os.set_blocking(self.fd, False)
        os.set_blocking(self._write_end, False)
        signal.set_wakeup_fd(self._write_end, warn_on_full_buffer=False)
        signal.pthread_sigmask(signal.SIG_BLOCK, _FAULTS)
        signal.signal(signal.SIGCHLD, lambda number, frame: None)
        for number in signal.valid_signals() - _OTHERS - _FAULTS:
            if number != signal.SIGHUP or signal.getsignal(number) is not signal.SIG_IGN:
                signal.signal(number, self._catch)

    def _catch(self, number: int, _frame: Any) -> None:
        self._caught = self._caught or number

    def caught(self) -> Optional[int]:
        """The first signal that came."""
        if self._caught is None and signal.sigpending() & _FAULTS:
            self._caught = signal.sigwait(_FAULTS)
        return self._caught


def _unblock() -> None:
    """Gives a child the signals that are blocked here."""
    signal.pthread_sigmask(signal.SIG_SETMASK, ())


def _make_small(pipe: int) -> None:
    """Has a pipe hold less, where the system can."""
    try:
        fcntl.fcntl(pipe, _SET_PIPE_SIZE, _PIPE_SIZE)
    except OSError:
        pass


class Child:
    """A process in a session of its own, with pipes for its input and its output."""

    def __init__(self, command: list[str], stderr: Any = None) -> None:
        self._process = subprocess.Popen(command, stdin=subprocess.PIPE, stdout=subprocess.PIPE, stderr=stderr, bufsize=0,
                                         start_new_session=True, preexec_fn=_unblock)
        self.input: int = self._process.stdin.fileno()
        self.output: int = self._process.stdout.fileno()
        for end in (self.input, self.output):
            _make_small(end)

    @property
    def is_ended(self) -> bool:
        """Whether the process has ended. It stays unreaped, so that its number is no other's."""
        if self._process.returncode is not None:
            return True
        return os.waitid(os.P_PID, self._process.pid, os.WEXITED | os.WNOHANG | os.WNOWAIT) is not None

    def close_input(self) -> None:
        """Lets the process see the end of its input."""
        self._process.stdin.close()

    def wait(self, seconds: float) -> bool:
        """Whether the process has ended within this time."""
        limit = time.monotonic() + seconds
        while not self.is_ended and time.monotonic() < limit:
            time.sleep(_STEP)
        return self.is_ended

    def signal(self, number: int) -> None:
        """Sends a signal to the process and to those that it started."""
        try:
            os.killpg(self._process.pid, number)
        except OSError:
            pass

    def finish(self) -> int:
        """Sees to it that nothing of the process stays, and gives its status."""
        if self._process.returncode is not None:
            return self._process.returncode
        self.close_input()
        self._process.stdout.close()
        if not self.wait(_PATIENCE):
            self.signal(signal.SIGTERM)
            self.wait(_PATIENCE)
        self.signal(signal.SIGKILL)
        try:
            return self._process.wait(_PATIENCE)
        except subprocess.TimeoutExpired:
            return -signal.SIGKILL


@contextmanager
def _locked(folder: str) -> Iterator[None]:
    """Keeps others of this program from taking a socket over in this folder meanwhile."""
    fd = os.open(folder, os.O_RDONLY | os.O_DIRECTORY | os.O_CLOEXEC)
    try:
        limit = time.monotonic() + _PATIENCE
        while not _try_lock(fd):
            if time.monotonic() > limit:
                raise Unusable("another program has locked %s" % folder)
            time.sleep(_STEP)
        yield
    finally:
        os.close(fd)


def _try_lock(fd: int) -> bool:
    try:
        fcntl.flock(fd, fcntl.LOCK_EX | fcntl.LOCK_NB)
    except BlockingIOError:
        return False
    return True


def _clear(path: str) -> None:
    """Removes a socket of ours at which nobody listens. Anything else that is there stays, and is
    said.
    """
    try:
        found = os.lstat(path)
    except FileNotFoundError:
        return
    if not stat.S_ISSOCK(found.st_mode):
        raise Unusable("%s is there and is no socket" % path)
    if found.st_uid != os.geteuid():
        raise Unusable("%s is another user's" % path)
    with socket.socket(socket.AF_UNIX) as probe:
        probe.settimeout(_PATIENCE)
        try:
            probe.connect(path)
        except ConnectionRefusedError:
            os.unlink(path)
        else:
            raise Unusable("%s is in use" % path)


class Listener:
    """The socket that editors join at, which nobody but its owner can open."""

    def __init__(self, path: str) -> None:
        self.path = os.path.abspath(path)
        self.socket = socket.socket(socket.AF_UNIX)
        self._identity: Optional[tuple[int, int]] = None
        try:
            with _locked(os.path.dirname(self.path)):
                _clear(self.path)
                self._bind()
        except (OSError, Unusable) as why:
            self.close()
            raise Unusable(str(why)) from None
        self.socket.setblocking(False)

    def _bind(self) -> None:
        mask = os.umask(0o177)
        try:
            self.socket.bind(self.path)
            found = os.lstat(self.path)
            self._identity = (found.st_dev, found.st_ino)
        finally:
            os.umask(mask)
        self.socket.listen(128)

    @property
    def is_open(self) -> bool:
        """Whether editors can join."""
        return self.socket.fileno() >= 0

    def accept(self) -> Optional[socket.socket]:
        """The next one that joins."""
        try:
            return self.socket.accept()[0]
        except OSError:
            return None

    def close(self) -> None:
        """Closes the socket, and removes its path where it is still this socket's."""
        self.socket.close()
        try:
            found = os.lstat(self.path)
            if (found.st_dev, found.st_ino) == self._identity:
                os.unlink(self.path)
        except OSError:
            pass
        self._identity = None
