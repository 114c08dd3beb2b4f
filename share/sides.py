"""The editors' sides: how far each has come, and which of its requests are unanswered."""
from collections import deque
from dataclasses import dataclass, field
from enum import Enum
from typing import Any, Optional

from messages import Message, member

_MOST_HELD = 1 << 20
_UTF16 = ["utf-16"]


class Stage(Enum):
    """How far an editor has come."""

    AWAITED = "nobody has taken this side"
    JOINED = "its initialize isn't answered"
    READY = "its initialize is answered"
    DOWN = "it has asked for a shutdown"
    GONE = "it has left"


@dataclass(frozen=True)
class Asked:
    """A request that is unanswered."""

    id: Any
    method: str
    number: int


@dataclass
class Editor:
    """An editor's side."""

    side: int
    stage: Stage = Stage.AWAITED
    asked: list[Asked] = field(default_factory=list)
    held: deque = field(default_factory=deque)
    held_size: int = 0
    folders: list[Message] = field(default_factory=list)
    is_welcome: bool = False

    @property
    def is_here(self) -> bool:
        """Whether an editor has this side now."""
        return self.stage in (Stage.JOINED, Stage.READY, Stage.DOWN)

    def ask(self, id: Any, method: str, number: int) -> None:
        """Notes a request, the so many-th of all."""
        self.asked.append(Asked(id, method, number))

    def answer(self, id: Any) -> Optional[str]:
        """Notes the answer to a request, and gives its method. Of two under one id the later is
        refused first.
        """
        for place in range(len(self.asked) - 1, -1, -1):
            if self.asked[place].id == id:
                return self.asked.pop(place).method
        return None

    def first_asked(self, method: str) -> Optional[int]:
        """The number of its first unanswered request of that method."""
        return next((each.number for each in self.asked if each.method == method), None)

    def hold(self, body: bytes) -> None:
        """Keeps what can't be sent before its initialize is answered, up to a bound; the oldest
        goes first.
        """
        self.held.append(body)
        self.held_size += len(body)
        while self.held_size > _MOST_HELD:
            self.held_size -= len(self.held.popleft())

    def leave(self) -> None:
        """Nobody waits here any more."""
        self.stage = Stage.GONE
        self.asked.clear()
        self.release()

    def release(self) -> list[bytes]:
        """What was held, in order."""
        bodies = list(self.held)
        self.held.clear()
        self.held_size = 0
        return bodies


def prepare_initialize(message: Message, pid: int) -> Message:
    """An editor's initialize as the server is to see it: this process to watch, and positions in
    UTF-16.
    """
    params = message.get("params")
    if not isinstance(params, dict):
        return message
    params = {**params, "processId": pid}
    capabilities = params.get("capabilities")
    if isinstance(capabilities, dict):
        params["capabilities"] = _cut_encodings(capabilities)
    return {**message, "params": params}


def _cut_encodings(capabilities: Message) -> Message:
    """Capabilities in which positions are counted in UTF-16, which each editor can."""
    cut = dict(capabilities)
    if "offsetEncoding" in cut:
        cut["offsetEncoding"] = _UTF16
    if isinstance(member(cut, "general", "positionEncodings"), list):
        cut["general"] = {**cut["general"], "positionEncodings": _UTF16}
    return cut


def folders_of(message: Message) -> list[Message]:
    """The folders that an initialize names."""
    params = message.get("params")
    folders = member(params, "workspaceFolders")
    if isinstance(folders, list):
        return [each for each in folders if isinstance(member(each, "uri"), str)]
    root = member(params, "rootUri")
    return [{"uri": root, "name": root.rpartition("/")[2]}] if isinstance(root, str) else []
