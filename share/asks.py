"""The server's requests: which editor is asked, and what every editor is told of them."""
from dataclasses import dataclass
from typing import Any, Optional

from messages import Code, Message, failure, member, request
from sides import Editor, Stage

_OWN = "lsp_share/%d"
REGISTER = "client/registerCapability"
UNREGISTER = "client/unregisterCapability"


@dataclass(frozen=True)
class Route:
    """A request that the proxy sent to one side, and the side that was asked in its place."""

    proxy_side: int
    asked_side: int


class Asks:
    """The server's unanswered requests, and the registrations that it asked for."""

    def __init__(self) -> None:
        self._routes: dict[Any, Route] = {}
        self._registrations: dict[str, Message] = {}
        self._own: set[str] = set()
        self._drawn = 0

    def route(self, side: int, id: Any, method: str, editors: list[Editor]) -> Optional[int]:
        """The side that is asked what the proxy asks of this one. None where nobody is there."""
        target = self._target(method, [editor for editor in editors if editor.stage is Stage.READY])
        if target is None and editors[side - 1].stage is Stage.JOINED:
            target = side
        if target is not None:
            self._routes[id] = Route(side, target)
        return target

    @staticmethod
    def _target(method: str, ready: list[Editor]) -> Optional[int]:
        """An edit is for the editor whose command is at work; all else is for the lowest."""
        if method == "workspace/applyEdit":
            at_work = [(editor.first_asked("workspace/executeCommand"), editor.side) for editor in ready]
            at_work = [each for each in at_work if each[0] is not None]
            if at_work:
                return min(at_work)[1]
        return min((editor.side for editor in ready), default=None)

    def answer(self, side: int, message: Message) -> Optional[tuple[int, Message]]:
        """An editor's answer as the proxy is to have it. None where it answers nothing that the
        server asked of it.
        """
        id = message["id"]
        if isinstance(id, str) and id in self._own:
            self._own.discard(id)
            return None
        route = self._routes.get(id)
        if route is None or route.asked_side != side:
            return None
        del self._routes[id]
        return route.proxy_side, message

    def cancelled(self, side: int, id: Any) -> int:
        """The side that was asked what the proxy cancels at this one."""
        route = self._routes.get(id)
        return side if route is None else route.asked_side

    def leave(self, side: int) -> list[tuple[int, Message]]:
        """The answers for an editor that goes. What was asked of it by its own number, the proxy
        answers itself.
        """
        left = {id: route for id, route in self._routes.items() if route.asked_side == side}
        for id in left:
            del self._routes[id]
        return [(route.proxy_side, failure(id, Code.INTERNAL_ERROR, "the editor has left"))
                for id, route in left.items() if route.proxy_side != side]

    def register(self, method: str, params: Any) -> None:
        """Notes what the server registers or lets go."""
        # The misspelled name is the protocol's.
        listed = member(params, "registrations" if method == REGISTER else "unregisterations")
        for each in listed if isinstance(listed, list) else []:
            self._registrations.pop(str(member(each, "id")), None)
            if method == REGISTER:
                self._registrations[str(member(each, "id"))] = each

    def copy(self, method: str, params: Any) -> Message:
        """A request of lsp_share's own, whose answer the server doesn't hear."""
        self._drawn += 1
        id = _OWN % self._drawn
        self._own.add(id)
        return request(id, method, params)

    def replay(self) -> Optional[Message]:
        """What an editor that joins late is to register."""
        if not self._registrations:
            return None
        return self.copy(REGISTER, {"registrations": list(self._registrations.values())})
