"""A small language server of the tests, which misbehaves where it is asked to.

Arguments: `die` ends it at once, `mute` lets it answer nothing, `deaf` lets it outlive its input,
shutdown and SIGTERM, `child` starts a process that holds its output open, `banner` writes a line
that is no frame.
"""
import json
import os
import signal
import subprocess
import sys
import threading
import time
from collections import deque
from typing import Any, Callable, Optional

from frames import FrameReader, frame
from text import Text


class Turns:
    """A lock that is given in the order in which it was asked for."""

    def __init__(self) -> None:
        self._lock = threading.Lock()
        self._gates: deque = deque()

    def __enter__(self) -> None:
        gate = threading.Lock()
        gate.acquire()
        with self._lock:
            self._gates.append(gate)
            if len(self._gates) == 1:
                gate.release()
        gate.acquire()

    def __exit__(self, *_: Any) -> None:
        with self._lock:
            self._gates.popleft()
            if self._gates:
                self._gates[0].release()


_writes = Turns()


class Unruly:
    """The server's documents, what it heard, and how it answers."""

    def __init__(self) -> None:
        self.texts: dict[str, Text] = {}
        self.heard: list[Any] = []
        self.commands: dict[Any, Any] = {}
        self.asked = 0

    def put(self, **members: Any) -> None:
        """Sends a message."""
        self.write(frame(json.dumps({"jsonrpc": "2.0", **members}).encode("utf-8")))

    @staticmethod
    def write(data: bytes) -> None:
        """Sends bytes as they are."""
        with _writes:
            while data:
                data = data[os.write(1, data):]

    def ask(self, method: str, params: Any) -> int:
        """Sends a request."""
        self.asked += 1
        self.put(id=self.asked, method=method, params=params)
        return self.asked

    def hear(self, message: Any) -> None:
        """Takes a message, and does what its method says."""
        method, id, params = message.get("method"), message.get("id"), message.get("params")
        if method is None:
            return self.answered(id, message)
        self.heard.append([method, (params.get("textDocument") or {}).get("version") if isinstance(params, dict) else None])
        act: Optional[Callable] = getattr(self, "on_" + method.rpartition("/")[2], None)
        if act is not None:
            act(id, params)
        elif id is not None:
            self.put(id=id, error={"code": -32601, "message": method})

    def answered(self, id: Any, message: Any) -> None:
        """An editor's answer ends the command that waits for it."""
        self.heard.append(["answer", message.get("result", message.get("error"))])
        if id in self.commands:
            self.put(id=self.commands.pop(id), result=message.get("result"))

    def on_initialize(self, id: Any, params: Any) -> None:
        """Says what came, so that a test can see what a server is told."""
        folders = {"workspaceFolders": {"supported": True}}
        self.put(id=id, result={"capabilities": {"textDocumentSync": 2, "workspace": folders}, "seen": params})

    def on_shutdown(self, id: Any, _params: Any) -> None:
        """Answers."""
        self.put(id=id, result=None)

    def on_exit(self, _id: Any, _params: Any) -> None:
        """Ends."""
        sys.exit(0)

    def on_heard(self, id: Any, _params: Any) -> None:
        """What was heard so far."""
        self.put(id=id, result=self.heard)

    def on_echo(self, id: Any, params: Any) -> None:
        """The params."""
        self.put(id=id, result=params)

    # ---- Documents.

    def on_didOpen(self, _id: Any, params: Any) -> None:
        """Keeps the text."""
        document = params["textDocument"]
        self.texts[document["uri"]] = Text(document["text"])
        self.diagnose(document)

    def on_didChange(self, _id: Any, params: Any) -> None:
        """Changes the text."""
        self.texts[params["textDocument"]["uri"]].change(params["contentChanges"])
        self.diagnose(params["textDocument"])

    def on_didClose(self, _id: Any, params: Any) -> None:
        """Forgets the text."""
        del self.texts[params["textDocument"]["uri"]]
        self.put(method="textDocument/publishDiagnostics", params={"uri": params["textDocument"]["uri"], "diagnostics": []})

    def diagnose(self, document: Any) -> None:
        """Diagnostics that hold the whole text."""
        found = [{"message": self.texts[document["uri"]].whole(), "score": 1.5}]
        params = {"uri": document["uri"], "version": document["version"], "diagnostics": found}
        self.put(method="textDocument/publishDiagnostics", params=params)

    def on_hover(self, id: Any, params: Any) -> None:
        """The whole text."""
        text = self.texts.get(params["textDocument"]["uri"])
        self.put(id=id, result=None if text is None else {"contents": text.whole()})

    def on_rename(self, id: Any, params: Any) -> None:
        """An edit of a version of the document."""
        self.put(id=id, result={"documentChanges": [{"textDocument": params["textDocument"], "edits": []}]})

    # ---- Requests of its own.

    def on_executeCommand(self, id: Any, _params: Any) -> None:
        """Has the editor apply an edit, and answers with what that one says."""
        self.commands[self.ask("workspace/applyEdit", {"edit": {}})] = id

    def on_register(self, id: Any, params: Any) -> None:
        """Registers or lets go."""
        self.commands[self.ask(params["method"], params["params"])] = id

    def on_log(self, _id: Any, params: Any) -> None:
        """A notification to all."""
        self.put(method="window/logMessage", params=params)

    # ---- Bad manners.

    def on_die(self, _id: Any, _params: Any) -> None:
        """Ends without an answer."""
        os._exit(7)

    def on_silent(self, _id: Any, _params: Any) -> None:
        """Never answers."""

    def on_raw(self, id: Any, params: str) -> None:
        """Answers with this body, in which ID stands for the id."""
        self.write(frame(params.replace("ID", str(id)).encode("utf-8")))

    def on_garbage(self, id: Any, _params: Any) -> None:
        """Writes what is no frame, and then an answer."""
        self.write(b"some words\r\n\r\nwarning: more words\n")
        self.put(id=id, result="after garbage")

    def on_big(self, id: Any, params: int) -> None:
        """An answer of so many bytes."""
        self.put(id=id, result="x" * params)

    def on_flood(self, id: Any, params: Any) -> None:
        """So many notifications of so many bytes, and then an answer."""
        for _ in range(params[0]):
            self.put(method="window/logMessage", params={"type": 4, "message": "x" * params[1]})
        self.put(id=id, result=params[0])

    def on_stream(self, id: Any, params: Any) -> None:
        """So many diagnostics of so many bytes, while it goes on with other messages, and then an
        answer.
        """

        def stream() -> None:
            for _ in range(params["count"]):
                found = [{"message": "x" * params["size"]}]
                self.put(method="textDocument/publishDiagnostics", params={"uri": params["uri"], "diagnostics": found})
            self.put(id=id, result=None)

        threading.Thread(target=stream, daemon=True).start()

    def on_sleep(self, id: Any, params: float) -> None:
        """Reads nothing for so long."""
        time.sleep(params)
        self.put(id=id, result=None)


def main(manners: list[str]) -> None:
    """Serves until the input ends."""
    if "die" in manners:
        sys.exit(7)
    if "deaf" in manners:
        signal.signal(signal.SIGTERM, signal.SIG_IGN)
    if "child" in manners:
        subprocess.Popen(["sleep", "300"])
    if "banner" in manners:
        Unruly.write(b"Welcome to a server\r\n")
    server, reader = Unruly(), FrameReader()
    while True:
        piece = os.read(0, 1 << 16)
        while not piece and "deaf" in manners:
            time.sleep(1)
        if not piece:
            return
        reader.feed(piece)
        for body in reader.items():
            if not {"mute", "deaf"} & set(manners) or b'"initialize"' in body and "deaf" in manners:
                server.hear(json.loads(body))


main(sys.argv[1:])
