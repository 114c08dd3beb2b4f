"""Documents by URI, so that several editors may have one file open before a server that knows one
text of it.

One editor owns the text: the server has that one's. An editor with an equal text follows, and owns
it once it changes it, or closes the file and opens it with another text. What an editor with another text says of the file goes no further, until its
text is the owner's again.
"""
from collections import deque
from dataclasses import dataclass, field
from typing import Any, Optional
from urllib.parse import unquote

from messages import Code, Message, failure, member, notification, warning
from text import Text

_VERSIONS_KEPT = 64
_OTHER_TEXT = "another editor has another text of this file, and the server sees that one; load it here, or close the file there"


@dataclass
class Copy:
    """A file as one editor has it open."""

    uri: str
    text: Text
    version: Any
    is_told: bool = False


@dataclass
class File:
    """A file that is open: who owns its text, the number of that text at the server, and each
    editor's copy.
    """

    uri: str
    owner: int
    version: int
    copies: dict[int, Copy] = field(default_factory=dict)
    versions: deque = field(default_factory=lambda: deque(maxlen=_VERSIONS_KEPT))
    # Who closed the file while it had the server's text, which nobody has changed since.
    closers: set[int] = field(default_factory=set)

    def is_current(self, side: int) -> bool:
        """Whether this editor's text is the one that the server has."""
        return side == self.owner or self.copies[side].text.is_same(self.copies[self.owner].text)

    def step(self) -> int:
        """The server's number of the owner's text, which is a new one."""
        own = self.copies[self.owner].version
        self.version = own if isinstance(own, int) and own > self.version else self.version + 1
        self.versions.append((self.version, self.owner, own))
        return self.version

    def version_of(self, side: int, version: Any) -> Any:
        """This editor's number of the text that has this number at the server, or None."""
        if version == self.version and self.is_current(side):
            return self.copies[side].version
        found = [own for number, owner, own in self.versions if (number, owner) == (version, side)]
        return found[0] if found else None

    def settle(self) -> None:
        """An editor whose text is the server's is told anew, should it come to have another."""
        for side, copy in self.copies.items():
            copy.is_told = copy.is_told and not self.is_current(side)


@dataclass
class Outcome:
    """What goes to the server, each from its editor, what goes to editors, and who has come to have
    the server's text.
    """

    passed: list[tuple[int, Message]] = field(default_factory=list)
    told: list[tuple[int, Message]] = field(default_factory=list)
    current: list[tuple[int, str]] = field(default_factory=list)


def _with_document(message: Message, **members: Any) -> Message:
    """The message, with these members of its document changed."""
    document = {**message["params"]["textDocument"], **members}
    return {**message, "params": {**message["params"], "textDocument": document}}


def _whole_change(uri: str, version: Any, text: Text) -> Message:
    """The change that makes a document this text."""
    document = {"uri": uri, "version": version}
    return notification("textDocument/didChange", {"textDocument": document, "contentChanges": [{"text": text.whole()}]})


class Files:
    """All files that are open. A file is found by its URI however that is escaped."""

    def __init__(self) -> None:
        self._files: dict[str, File] = {}

    def hear(self, side: int, message: Message) -> Outcome:
        """What becomes of an editor's request or notification."""
        uri = member(message, "params", "textDocument", "uri")
        if not isinstance(uri, str):
            return Outcome(passed=[(side, message)])
        if message["method"] == "textDocument/didOpen":
            return self._open(side, uri, message)
        file = self._held(side, uri)
        if file is None:
            return Outcome(passed=[(side, message)])
        if message["method"] == "textDocument/didChange":
            return self._change(file, side, message)
        if message["method"] == "textDocument/didClose":
            return self._close(file, side)
        if file.is_current(side):
            return Outcome(passed=[(side, message if uri == file.uri else _with_document(message, uri=file.uri))])
        return self._refuse(file, side, message)

    def leave(self, side: int) -> Outcome:
        """What is said for an editor that goes: its files are closed or handed on."""
        outcome = Outcome()
        for file in [file for file in self._files.values() if side in file.copies]:
            closed = self._close(file, side)
            outcome.passed += closed.passed
            outcome.current += closed.current
        return outcome

    def is_open(self, uri: str) -> bool:
        """Whether an editor has the file open."""
        return unquote(uri) in self._files

    def diagnostics_for(self, side: int, message: Message) -> Optional[Message]:
        """Diagnostics as this editor is told them: it has the file open, with the text that they
        are of.
        """
        params = member(message, "params")
        file, version = self._held(side, str(member(params, "uri"))), member(params, "version")
        if file is None:
            return None
        own = None if version is None else file.version_of(side, version)
        if side != file.owner and not (file.is_current(side) if version is None else own is not None):
            return None
        told = {**params, "uri": file.copies[side].uri}
        told.pop("version", None)
        return {**message, "params": told if own is None else {**told, "version": own}}

    def translate(self, side: int, value: Any) -> Any:
        """A value for this editor, in whose edits of documents each version is the editor's own."""
        if isinstance(value, list):
            return [self.translate(side, each) for each in value]
        if not isinstance(value, dict):
            return value
        value = {name: self.translate(side, each) for name, each in value.items()}
        document = value.get("textDocument")
        file = self._held(side, str(member(document, "uri"))) if "edits" in value else None
        own = file.version_of(side, member(document, "version")) if file is not None else None
        return value if own is None else {**value, "textDocument": {**document, "version": own}}

    def _held(self, side: int, uri: str) -> Optional[File]:
        """The file of that URI, where this editor has it open."""
        file = self._files.get(unquote(uri))
        return file if file is not None and side in file.copies else None

    def _open(self, side: int, uri: str, message: Message) -> Outcome:
        document = message["params"]["textDocument"]
        text, version = document.get("text"), document.get("version")
        copy = Copy(uri, Text(text if isinstance(text, str) else ""), version)
        file = self._files.get(unquote(uri))
        if file is None:
            file = File(uri, side, version if isinstance(version, int) else 0, {side: copy})
            self._files[unquote(uri)] = file
            return Outcome(passed=[(side, message)], current=[(side, uri)])
        if side in file.copies:
            return self._change(file, side, _whole_change(uri, version, copy.text))
        file.copies[side] = copy
        if side in file.closers and not file.is_current(side):
            return self._load(file, side)
        return self._meet(file, side)

    @staticmethod
    def _load(file: File, side: int) -> Outcome:
        """An editor closed the file and opens it with another text, as some do to load it anew. It
        owns the text as if it had changed it.
        """
        file.owner = side
        file.closers.clear()
        change = _whole_change(file.uri, file.step(), file.copies[side].text)
        file.settle()
        return Outcome(passed=[(side, change)])

    def _meet(self, file: File, side: int) -> Outcome:
        """An editor's new text, beside that of the owner."""
        if not file.is_current(side):
            return Outcome(told=self._tell(file, side))
        file.copies[side].is_told = False
        return Outcome(current=[(side, file.uri)])

    def _change(self, file: File, side: int, message: Message) -> Outcome:
        copy, was_current = file.copies[side], file.is_current(side)
        changes = member(message, "params", "contentChanges")
        copy.text.change(changes if isinstance(changes, list) else [])
        copy.version = member(message, "params", "textDocument", "version")
        if not was_current:
            return self._meet(file, side)
        file.owner = side
        file.closers.clear()
        version = file.step()
        file.settle()
        return Outcome(passed=[(side, _with_document(message, uri=file.uri, version=version))])

    def _close(self, file: File, side: int) -> Outcome:
        """The last one's close goes to the server; before that, an owner's place is handed on."""
        if len(file.copies) == 1:
            del self._files[unquote(file.uri)]
            return Outcome(passed=[(side, notification("textDocument/didClose", {"textDocument": {"uri": file.uri}}))])
        if file.is_current(side):
            file.closers.add(side)
        text = file.copies.pop(side).text
        return self._hand_on(file, text) if side == file.owner else Outcome()

    @staticmethod
    def _hand_on(file: File, text: Text) -> Outcome:
        """The next owner is the first with the text that the server has, or else the first, whose
        text goes there.
        """
        same = [side for side, copy in file.copies.items() if copy.text.is_same(text)]
        file.owner = same[0] if same else next(iter(file.copies))
        copy = file.copies[file.owner]
        if same:
            file.versions.append((file.version, file.owner, copy.version))
            return Outcome()
        change = _whole_change(file.uri, file.step(), copy.text)
        file.settle()
        return Outcome(passed=[(file.owner, change)])

    def _refuse(self, file: File, side: int, message: Message) -> Outcome:
        """An editor with another text asks or says something of the file."""
        told = self._tell(file, side)
        if "id" in message:
            told.append((side, failure(message["id"], Code.CONTENT_MODIFIED, _OTHER_TEXT)))
        return Outcome(told=told)

    @staticmethod
    def _tell(file: File, side: int) -> list[tuple[int, Message]]:
        """The warning of another text, once until the texts are equal again."""
        copy = file.copies[side]
        if copy.is_told:
            return []
        copy.is_told = True
        return [(side, warning("%s: %s" % (unquote(copy.uri).rpartition("/")[2], _OTHER_TEXT)))]
