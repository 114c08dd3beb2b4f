"""What becomes of each message, between the editors' sockets, the proxy and the server. Nothing is
read or written here.
"""
import os
from functools import lru_cache
from typing import Any, Optional

from asks import REGISTER, UNREGISTER, Asks
from diagnosed import Diagnosed
from files import Files, Outcome
from messages import Code, Head, Kind, Message, Unfit, failure, head_of, kind_of, member, notification, outline, tidy
from ports import Ports
from sides import Editor, Stage, folders_of, prepare_initialize
from values import NotJson, TooDeep, read, read_carried, restore, write
from wrapped import SERVER, TooLong, unwrap, wrap

_DIAGNOSTICS = "textDocument/publishDiagnostics"
_CANCEL = "$/cancelRequest"


@lru_cache(maxsize=1)
def _read_once(body: bytes) -> Any:
    """The value of a body that goes to several editors, one after the other."""
    return read_carried(body)


class Switch:
    """All sides, and what is known of them."""

    def __init__(self, editors: int, ports: Ports) -> None:
        self.editors = [Editor(side) for side in range(1, editors + 1)]
        self._ports = ports
        self._files = Files()
        self._diagnosed = Diagnosed()
        self._asks = Asks()
        self._requests = 0
        self._folders: set[str] = set()
        self._takes_folders = False
        self._is_ending = False

    # ---- Comings and goings.

    def join(self) -> Optional[int]:
        """The side of an editor that joins, or None where there is none for it."""
        if self._is_ending:
            return None
        free = next((editor for editor in self.editors if editor.stage is Stage.AWAITED), None)
        if free is None:
            return None
        free.stage = Stage.JOINED
        return free.side

    def leave(self, side: int) -> None:
        """An editor goes, with an exit or without one."""
        editor = self.editors[side - 1]
        if not editor.is_here:
            return
        self._carry_out(self._files.leave(side))
        for asked in editor.asked:
            self._into(side, notification(_CANCEL, {"id": asked.id}))
        for proxy_side, message in self._asks.leave(side):
            self._into(proxy_side, message)
        editor.leave()
        self._into(side, notification("exit"))
        self._ports.close_editor(side)
        if not any(each.is_here for each in self.editors):
            self._end()

    def _end(self) -> None:
        """The last editor has gone: sides that nobody took go too, or the server would never be
        shut down.
        """
        self._is_ending = True
        for editor in self.editors:
            if editor.stage is Stage.AWAITED:
                editor.stage = Stage.GONE
                self._into(editor.side, notification("exit"))
        self._ports.all_left()

    def ended(self, words: str) -> None:
        """No answer comes any more: each request that is unanswered is told why."""
        for editor in self.editors:
            for asked in editor.asked if editor.is_here else []:
                answer = failure(asked.id, Code.INTERNAL_ERROR, words)
                self._ports.to_editor(editor.side, restore(write(answer)))
            editor.asked.clear()

    # ---- What an editor sends.

    def from_editor(self, side: int, body: bytes) -> None:
        """Takes a body of an editor."""
        if not self.editors[side - 1].is_here:
            return
        try:
            message = tidy(read(body))
        except NotJson as why:
            self._tell(side, failure(None, Code.PARSE_ERROR, "Parse error: %s" % why))
        except Unfit as why:
            self._tell(side, failure(why.id, Code.INVALID_REQUEST, "Invalid request: %s" % why))
        except TooDeep:
            self._lose_deep(side, body)
        else:
            self._hear(self.editors[side - 1], message)

    def from_fault(self, side: int, words: str) -> None:
        """An editor sent what is no frame."""
        self._tell(side, failure(None, Code.PARSE_ERROR, "Parse error: %s" % words))

    def _hear(self, editor: Editor, message: Message) -> None:
        kind = kind_of(message)
        if kind is Kind.ANSWER:
            answer = self._asks.answer(editor.side, message)
            if answer is not None:
                self._into(*answer)
        elif kind is Kind.REQUEST:
            self._hear_request(editor, message)
        elif message["method"] == "exit":
            self.leave(editor.side)
        elif editor.stage is Stage.DOWN:
            return
        elif message["method"] == "initialized":
            self._into(editor.side, message)
            self._welcome(editor)
        else:
            self._carry_out(self._files.hear(editor.side, message))

    def _hear_request(self, editor: Editor, message: Message) -> None:
        self._requests += 1
        editor.ask(message["id"], message["method"], self._requests)
        if message["method"] == "initialize":
            editor.folders = folders_of(message)
            message = prepare_initialize(message, os.getpid())
        elif message["method"] == "shutdown":
            # Once it is down, the proxy passes nothing of it on, so its files are closed before.
            self._carry_out(self._files.leave(editor.side))
            editor.stage = Stage.DOWN
        self._carry_out(self._files.hear(editor.side, message))

    def _welcome(self, editor: Editor) -> None:
        """An editor is ready: it registers what the server asked for before, and its folders are
        added.
        """
        if editor.is_welcome:
            return
        editor.is_welcome = True
        replay = self._asks.replay()
        if replay is not None:
            self._tell(editor.side, replay)
        added = [folder for folder in editor.folders if folder["uri"] not in self._folders]
        if added and self._takes_folders:
            self._folders.update(folder["uri"] for folder in added)
            self._into(editor.side, notification("workspace/didChangeWorkspaceFolders", {"event": {"added": added, "removed": []}}))

    def _carry_out(self, outcome: Outcome) -> None:
        for side, message in outcome.passed:
            self._into(side, message)
        for side, message in outcome.told:
            self._tell(side, message)
        for side, uri in outcome.current:
            last = self._diagnosed.last(uri)
            if last is not None:
                self._show_diagnostics(side, last)

    def _into(self, side: int, message: Message) -> None:
        """Sends a message of this side to the proxy, if the proxy can carry it."""
        try:
            self._ports.to_proxy(wrap(side, message))
        except (TooDeep, TooLong) as why:
            self._lose(side, message, str(why))

    def _lose_deep(self, side: int, body: bytes) -> None:
        """A message that nests so deep that it can't be read."""
        try:
            self._lose(side, outline(body), str(TooDeep()))
        except Unfit:
            self._ports.say("lost a message of side %d, which nests too deep" % side)

    def _lose(self, side: int, message: Message, why: str) -> None:
        """A message that can't be carried: who waits for it hears so."""
        kind = kind_of(message)
        if kind is Kind.ANSWER:
            self._into(side, failure(message["id"], Code.INTERNAL_ERROR, "the answer was lost: %s" % why))
        elif kind is Kind.REQUEST:
            answer = failure(message["id"], Code.INTERNAL_ERROR, "the request was lost: %s" % why)
            if side == SERVER:
                self._ports.to_server(restore(write(answer)))
            else:
                self._tell(side, answer)
        else:
            self._ports.say("lost %s of side %d: %s" % (message["method"], side, why))

    # ---- What the server sends.

    def from_server(self, body: bytes) -> None:
        """Takes a body of the server."""
        try:
            message = tidy(read(body))
        except TooDeep:
            self._lose_deep(SERVER, body)
        except (NotJson, Unfit) as why:
            self._ports.say("the server sent what is no message: %s" % why)
        else:
            self._into(SERVER, message)

    # ---- What the proxy sends.

    def from_proxy(self, body: bytes) -> None:
        """Takes a body of the proxy, which is a message to one side."""
        side, message = unwrap(body)
        head = head_of(message)
        if side == SERVER:
            self._to_server(head, message)
        else:
            self._to_editor(self.editors[side - 1], head, message)

    def _to_server(self, head: Head, body: bytes) -> None:
        if head.method == "initialize":
            self._folders = {folder["uri"] for folder in folders_of(read_carried(body))}
        self._ports.to_server(restore(body))

    def _to_editor(self, editor: Editor, head: Head, body: bytes) -> None:
        if head.kind is Kind.REQUEST:
            self._ask(editor, head, body)
        elif not editor.is_here:
            return
        elif head.kind is Kind.ANSWER:
            self._answer(editor, head, body)
        elif head.method == _DIAGNOSTICS:
            self._diagnose(editor, body)
        elif head.method == _CANCEL:
            asked = self._asks.cancelled(editor.side, member(read_carried(body), "params", "id"))
            self._deliver(self.editors[asked - 1], body)
        else:
            self._deliver(editor, body)

    def _answer(self, editor: Editor, head: Head, body: bytes) -> None:
        method = editor.answer(head.id)
        if b'"documentChanges"' in body:
            body = write(self._files.translate(editor.side, read_carried(body)))
        self._ports.to_editor(editor.side, restore(body))
        if method == "initialize" and not head.is_error:
            self._takes_folders = bool(member(read_carried(body), "result", "capabilities", "workspace", "workspaceFolders", "supported"))
            if editor.stage is Stage.JOINED:
                editor.stage = Stage.READY
            for held in editor.release():
                self._ports.to_editor(editor.side, held)

    def _ask(self, editor: Editor, head: Head, body: bytes) -> None:
        """A request of the server goes to the editor that it is for."""
        target = self._asks.route(editor.side, head.id, head.method, self.editors)
        if target is None:
            return self._into(editor.side, failure(head.id, Code.INTERNAL_ERROR, "no editor is there"))
        if b'"documentChanges"' in body:
            body = write(self._files.translate(target, read_carried(body)))
        self._deliver(self.editors[target - 1], body)
        if head.method in (REGISTER, UNREGISTER):
            self._register(target, head.method, member(read_carried(body), "params"))

    def _register(self, target: int, method: str, params: Any) -> None:
        """What the server registers or lets go at one editor, every other one that is welcome hears
        too.
        """
        self._asks.register(method, params)
        for other in self.editors:
            if other.stage is Stage.READY and other.is_welcome and other.side != target:
                self._tell(other.side, self._asks.copy(method, params))

    def _diagnose(self, editor: Editor, body: bytes) -> None:
        message = _read_once(body)
        uri = str(member(message, "params", "uri"))
        if self._files.is_open(uri) or member(message, "params", "diagnostics"):
            self._diagnosed.keep(uri, body)
        else:
            self._diagnosed.drop(uri)
        self._show_diagnostics(editor.side, body)

    def _show_diagnostics(self, side: int, body: bytes) -> None:
        message = self._files.diagnostics_for(side, _read_once(body))
        if message is not None:
            self._tell(side, message)

    def _deliver(self, editor: Editor, body: bytes) -> None:
        """Sends what the proxy wrote, or holds it until the editor's initialize is answered."""
        if editor.stage is Stage.READY:
            self._ports.to_editor(editor.side, restore(body))
        elif editor.stage is Stage.JOINED:
            editor.hold(restore(body))

    def _tell(self, side: int, message: Message) -> None:
        """Sends a message of lsp_share's own."""
        if message.get("id") is not None and "method" not in message:
            self.editors[side - 1].answer(message["id"])
        self._ports.to_editor(side, restore(write(message)))
