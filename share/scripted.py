"""Scripted editors and started programs, for the tests."""
import itertools
import json
import os
import select
import signal
import socket
import subprocess
import sys
import time
from typing import Any, Optional

from frames import FrameReader, frame

LIMIT = 30.0
MB = 1 << 20
HERE = os.path.dirname(os.path.abspath(__file__))
ROOT = os.path.dirname(HERE)
SHARE = os.path.join(ROOT, "lsp_share")
JOIN = os.path.join(ROOT, "lsp_join")
_numbers = itertools.count()
UNRULY = [sys.executable, "-B", os.path.join(HERE, "unruly.py")]


class Failure(Exception):
    """What was wanted didn't come."""


def wanted(is_so: bool, words: str) -> None:
    """Fails where it isn't so."""
    if not is_so:
        raise Failure(words)


def until(is_so: Any, words: str, limit: float = LIMIT) -> None:
    """Waits until it is so."""
    end = time.monotonic() + limit
    while not is_so():
        wanted(time.monotonic() < end, "not within %.0f seconds: %s" % (limit, words))
        time.sleep(0.01)


def connected(path: str) -> socket.socket:
    """A connection, once somebody listens."""
    connection = socket.socket(socket.AF_UNIX)

    def connects() -> bool:
        try:
            connection.connect(path)
        except (ConnectionRefusedError, FileNotFoundError):
            return False
        return True

    until(connects, "somebody listens")
    return connection


class Editor:
    """An editor that does what a test says, at the socket, through lsp_join, or with a server
    alone.
    """

    def __init__(self, path: str, through_join: bool = False, command: Optional[list[str]] = None) -> None:
        self._reader = FrameReader()
        self._came: list[Any] = []
        self.process: Optional[subprocess.Popen] = None
        if through_join or command:
            self.process = subprocess.Popen(command or [JOIN, path], stdin=subprocess.PIPE,
                                            stdout=subprocess.PIPE, stderr=subprocess.DEVNULL, bufsize=0)
            self._in, self._out = self.process.stdin.fileno(), self.process.stdout.fileno()
        else:
            self._socket = connected(path)
            self._in = self._out = self._socket.fileno()

    def send(self, data: bytes) -> None:
        """Sends bytes as they are."""
        while data:
            data = data[os.write(self._in, data):]

    def fill(self) -> int:
        """Sends notifications until no more is taken for a while, and says how many bytes were."""
        note = frame(json.dumps({"jsonrpc": "2.0", "method": "x", "params": ["x" * 4000]}).encode("utf-8"))
        os.set_blocking(self._in, False)
        count = 0
        while select.select([], [self._in], [], 0.5)[1]:
            count += os.write(self._in, note[count % len(note):])
        return count

    def put(self, **members: Any) -> None:
        """Sends a message."""
        self.send(frame(json.dumps({"jsonrpc": "2.0", **members}).encode("utf-8")))

    def tell(self, method: str, params: Any = None) -> None:
        """Sends a notification."""
        self.put(method=method, **({} if params is None else {"params": params}))

    def _read(self, limit: float) -> bool:
        """Reads what comes within the limit, and says whether it was the end."""
        if not select.select([self._out], [], [], max(limit, 0))[0]:
            return False
        try:
            piece = os.read(self._out, 1 << 16)
        except ConnectionError:
            piece = b""
        self._reader.feed(piece)
        self._came += [json.loads(body) for body in self._reader.items()]
        return not piece

    def is_sent_to(self) -> bool:
        """Whether something has come that wasn't read."""
        return bool(select.select([self._out], [], [], 0)[0])

    def take(self, is_wanted: Any, words: str, limit: float = LIMIT) -> Any:
        """The first message that is wanted, which is taken out."""
        end = time.monotonic() + limit
        while True:
            for place, message in enumerate(self._came):
                if is_wanted(message):
                    return self._came.pop(place)
            left = end - time.monotonic()
            is_end = self._read(left)
            if (is_end or left < 0) and not any(map(is_wanted, self._came)):
                raise Failure("%s: %s; came: %s" % ("the end came before" if is_end else "didn't come", words, str(self._came)[:300]))

    def answer(self, id: Any) -> Any:
        """The answer under this id."""
        return self.take(lambda m: "method" not in m and m.get("id") == id, "the answer to %r" % (id,))

    def has(self, id: Any) -> bool:
        """Whether an answer under this id has come, and isn't taken out."""
        return any("method" not in m and m.get("id") == id for m in self._came)

    def ask(self, id: Any, method: str, params: Any = None) -> Any:
        """The answer to a request."""
        self.put(id=id, method=method, **({} if params is None else {"params": params}))
        return self.answer(id)

    def called(self, method: str, limit: float = LIMIT) -> Any:
        """The next request or notification of that method."""
        return self.take(lambda m: m.get("method") == method, method, limit)

    def nothing(self, method: str, seconds: float = 0.3) -> None:
        """Nothing of that method comes for a while."""
        end = time.monotonic() + seconds
        while time.monotonic() < end and not self._read(end - time.monotonic()):
            pass
        wanted(not any(m.get("method") == method for m in self._came), "%s came" % method)

    def settle(self) -> None:
        """Waits until all that was sent has reached the server."""
        self.ask("settle", "test/echo", [])

    def start(self, **params: Any) -> Any:
        """From initialize to initialized; the result."""
        result = self.ask("start", "initialize", {"capabilities": {}, "processId": 1, **params})
        self.tell("initialized", {})
        return result.get("result")

    def leave(self) -> None:
        """A shutdown and an exit, until the connection has ended."""
        wanted(self.ask("end", "shutdown").get("result", 0) is None, "the shutdown was answered with null")
        self.tell("exit")
        self.ended()

    def ended(self, limit: float = LIMIT) -> None:
        """The connection ends."""
        end = time.monotonic() + limit
        while not self._read(end - time.monotonic()):
            wanted(time.monotonic() < end, "the connection didn't end within %.0f seconds" % limit)

    def open(self, uri: str, text: str, version: int = 1) -> None:
        """Opens a document."""
        self.tell("textDocument/didOpen", {"textDocument": {"uri": uri, "languageId": "c", "version": version, "text": text}})

    def change(self, uri: str, version: int, text: str) -> None:
        """Makes a document this text."""
        self.tell("textDocument/didChange", {"textDocument": {"uri": uri, "version": version}, "contentChanges": [{"text": text}]})

    def close(self, uri: str) -> None:
        """Closes a document."""
        self.tell("textDocument/didClose", {"textDocument": {"uri": uri}})

    def cut(self) -> None:
        """Goes without a word."""
        if self.process is not None:
            self.process.kill()
            self.process.wait()
            self.process.stdin.close()
            self.process.stdout.close()
        else:
            self._socket.close()


class Share:
    """A started lsp_share, in a folder of its own."""

    def __init__(self, folder: str, proxy: str, server: list[str], editors: Any = 4, wait: float = 3.0, path: Optional[str] = None) -> None:
        self.path = path or os.path.join(folder, "socket")
        self.errors = os.path.join(folder, "errors")
        self._mark = "%s %d" % (folder, next(_numbers))
        environment = {**os.environ, "LSP_PROXY": proxy, "LSP_SHARE_WAIT": str(wait), "LSP_TEST": self._mark}
        with open(self.errors, "ab") as errors:
            self.process = subprocess.Popen([SHARE, self.path, str(editors), "--", *server], env=environment, stderr=errors)

    def ready(self) -> "Share":
        """Waits for the socket, or the end."""
        until(lambda: os.path.exists(self.path) or self.process.poll() is not None, "the socket")
        return self

    def said(self) -> str:
        """What it said on standard error."""
        with open(self.errors, encoding="utf-8") as errors:
            return errors.read()

    def status(self, limit: float = LIMIT) -> int:
        """Its status, once it has ended."""
        try:
            return self.process.wait(limit)
        except subprocess.TimeoutExpired:
            raise Failure("lsp_share didn't end within %.0f seconds" % limit) from None

    def stays_out(self, status: int, words: str) -> None:
        """It ends at once with this status, having started nothing."""
        wanted(self.status() == status, "the status is %d, not %d" % (status, self.process.returncode))
        wanted(words in self.said(), "%r is said: %s" % (words, self.said()))
        wanted(self.family() == [], "no process stays")

    def family(self) -> list[int]:
        """The processes that carry its mark in their environment, without lsp_share itself."""
        return [pid for pid in marked(self._mark + "\0") if pid != self.process.pid]

    def left_nothing(self) -> None:
        """No process of it stays, and no socket."""
        until(lambda: not marked(self._mark + "\0"), "no process stays", 5)
        wanted(not os.path.lexists(self.path), "no socket stays")

    def kill(self, number: int = signal.SIGKILL) -> None:
        """Sends a signal."""
        self.process.send_signal(number)


def marked(mark: str) -> list[int]:
    """The processes in whose environment LSP_TEST begins so."""
    text, found = b"LSP_TEST=%b" % os.fsencode(mark), []
    for name in os.listdir("/proc"):
        try:
            with open("/proc/%s/environ" % name, "rb") as file:
                if name.isdigit() and text in file.read():
                    found.append(int(name))
        except OSError:
            pass
    return found


def peak(pid: int) -> int:
    """The most memory that a process had, in KiB."""
    with open("/proc/%d/status" % pid, encoding="utf-8") as file:
        return next(int(line.split()[1]) for line in file if line.startswith("VmHWM"))
