"""Messages of JSON-RPC: what kind one is, in which form it goes to the proxy, and those that
lsp_share makes itself.
"""
import json
import re
from dataclasses import dataclass
from enum import Enum, IntEnum
from typing import Any, Optional

from values import read_carried

Message = dict[str, Any]


class Kind(Enum):
    """A message is one of these."""

    REQUEST = "request"
    NOTIFICATION = "notification"
    ANSWER = "answer"


class Code(IntEnum):
    """The codes of the errors that lsp_share answers with."""

    PARSE_ERROR = -32700
    INVALID_REQUEST = -32600
    INTERNAL_ERROR = -32603
    CONTENT_MODIFIED = -32801


class Unfit(ValueError):
    """A value that is no message, and the id that it has."""

    def __init__(self, words: str, id: Any = None) -> None:
        super().__init__(words)
        self.id = id


@dataclass(frozen=True)
class Head:
    """What is known of a message without its params or its result."""

    kind: Kind
    id: Any = None
    method: str = ""
    is_error: bool = False


# What the proxy writes has its members in the order of their names.
_HEAD = re.compile(rb'\{(?:"id":(null|-?[0-9]+|"(?:[^"\\]|\\.)*"),)?"jsonrpc":"2\.0",(?:"method":("(?:[^"\\]|\\.)*")|"result":)')

_TOKEN = re.compile(rb'"(?:[^"\\]|\\.)*"|[\[\]{}]')
_NAMED = re.compile(rb'"(id|method)"[ \t\r\n]*:[ \t\r\n]*(-?[0-9]{1,18}|"(?:[^"\\]|\\.)*")')


def head_of(body: bytes) -> Head:
    """The head of a message that the proxy wrote."""
    found = _HEAD.match(body)
    if found is None:
        return Head(Kind.ANSWER, read_carried(body).get("id"), is_error=True)
    id, method = found.groups()
    number = None if id is None else read_carried(id)
    if method is None:
        return Head(Kind.ANSWER, number)
    return Head(Kind.NOTIFICATION if id is None else Kind.REQUEST, number, read_carried(method))


def kind_of(message: Message) -> Kind:
    """The kind of a tidy message."""
    if "method" not in message:
        return Kind.ANSWER
    return Kind.REQUEST if "id" in message else Kind.NOTIFICATION


def _is_integer(value: Any) -> bool:
    return isinstance(value, int) and not isinstance(value, bool)


def _check_id(value: Any) -> None:
    if not (value is None or isinstance(value, str) or _is_integer(value)):
        raise Unfit("an id that is neither a number nor a text")


def tidy(value: Any) -> Message:
    """The message that a value is, in the one form that the proxy reads without loss."""
    if not isinstance(value, dict):
        raise Unfit("no object")
    if "id" in value:
        _check_id(value["id"])
    if "method" in value:
        return _tidy_call(value)
    if "id" in value:
        return _tidy_answer(value)
    raise Unfit("neither a method nor an id")


def _tidy_call(value: Message) -> Message:
    if not isinstance(value["method"], str):
        raise Unfit("a method that is no text", value.get("id"))
    message = {"jsonrpc": "2.0", "method": value["method"]}
    message.update((name, value[name]) for name in ("id", "params") if name in value)
    return message


def _tidy_answer(value: Message) -> Message:
    """An answer with a result or a whole error; what is missing of an error is made up."""
    id, error = value["id"], value.get("error")
    if isinstance(id, str) and id.isascii() and id.isdigit() and len(id) < 19:
        id = int(id)
    if error is None and "result" in value:
        return {"jsonrpc": "2.0", "id": id, "result": value["result"]}
    if not isinstance(error, dict):
        return failure(id, Code.INTERNAL_ERROR, "the answer had neither a result nor an error")
    code, words = error.get("code"), error.get("message")
    code = code if _is_integer(code) else Code.INTERNAL_ERROR
    words = words if isinstance(words, str) else "the answer was an error without a message"
    return failure(id, code, words, error.get("data"))


def outline(body: bytes) -> Message:
    """A message that nests too deep to be read: its method and its id, of which none is null."""
    names: Message = {}
    depth = 0
    for token in _TOKEN.finditer(body):
        depth += {b"{": 1, b"[": 1, b"}": -1, b"]": -1}.get(token[0], 0)
        named = _NAMED.match(body, token.start()) if depth == 1 else None
        if named is not None:
            names[named[1].decode("ascii")] = json.loads(named[2])
    return tidy(names)


def failure(id: Any, code: int, words: str, data: Any = None) -> Message:
    """An answer that is an error."""
    error = {"code": int(code), "message": words}
    if data is not None:
        error["data"] = data
    return {"jsonrpc": "2.0", "id": id, "error": error}


def notification(method: str, params: Any = None) -> Message:
    """A notification of lsp_share's own."""
    message = {"jsonrpc": "2.0", "method": method}
    return message if params is None else {**message, "params": params}


def request(id: Any, method: str, params: Any) -> Message:
    """A request of lsp_share's own."""
    return {"jsonrpc": "2.0", "id": id, "method": method, "params": params}


def warning(words: str) -> Message:
    """A message that the editor shows to its user."""
    return notification("window/showMessage", {"type": 2, "message": words})


def member(value: Any, *names: str) -> Optional[Any]:
    """The member of a member of an object and so on, or nothing where there is none."""
    for name in names:
        value = value.get(name) if isinstance(value, dict) else None
    return value
