"""JSON values on their way through the proxy.

The proxy carries integers of 64 bits and no float. Every other number goes through it as a text
that begins with a mark, and comes out as it was written; a text of the editor's own that begins
with the mark gets one more.
"""
import json
import re
from typing import Any

DEPTH_LIMIT = 125
_MARK = "\ue0f7"
_MARK_BYTES = _MARK.encode("utf-8")
_MARKED = re.compile(r'"\ue0f7(?:([-0-9][^"\\]*)"|\ue0f7)')
_MARK_ESCAPED = re.compile(rb"\\ue0f7", re.IGNORECASE)
# A number of so many digits may be one of more than 64 bits. This finds them faster than a pattern.
_MANY_DIGITS = b"0" * 19
_DIGITS_ALIKE = bytes(ord("0") if chr(code) in "0123456789" else 0 for code in range(256))
_encoder = json.JSONEncoder(ensure_ascii=False, separators=(",", ":"))


class NotJson(ValueError):
    """The bytes are no JSON text."""


class TooDeep(ValueError):
    """The value nests deeper than the proxy carries."""

    def __init__(self) -> None:
        super().__init__("it nests too deep")


class _Number(str):
    """A number that the proxy can't carry, as it was written."""


def _carried(text: str) -> str:
    return _MARK + text


def _is_small(text: str) -> bool:
    return len(text) < 19 or (len(text) <= 20 and -2 ** 63 <= int(text) < 2 ** 63)


def _integer(text: str) -> Any:
    return int(text) if _is_small(text) else _carried(text)


def _integer_or_number(text: str) -> Any:
    return int(text) if _is_small(text) else _Number(text)


def _refuse_constant(text: str) -> Any:
    raise ValueError("%s is no JSON" % text)


# One that is made once reads a short text in half the time of one that json.loads makes.
_plain = json.JSONDecoder()
_carrying = json.JSONDecoder(parse_float=_carried, parse_constant=_refuse_constant)
_carrying_long = json.JSONDecoder(parse_float=_carried, parse_int=_integer, parse_constant=_refuse_constant)
_marking = json.JSONDecoder(parse_float=_Number, parse_int=_integer_or_number, parse_constant=_refuse_constant)


def _escaped(value: Any) -> Any:
    """The value with one more mark before each text that begins with it, and each number that can't
    be carried.
    """
    if isinstance(value, _Number):
        return _carried(value)
    if isinstance(value, str):
        return _carried(value) if value.startswith(_MARK) else value
    if isinstance(value, list):
        return [_escaped(each) for each in value]
    if isinstance(value, dict):
        return {_escaped(name): _escaped(each) for name, each in value.items()}
    return value


def read(body: bytes) -> Any:
    """The value of a JSON text, as the proxy can carry it."""
    try:
        text = body.decode("utf-8")
        if _MARK_BYTES in body or _MARK_ESCAPED.search(body):
            return _escaped(_marking.decode(text))
        decoder = _carrying_long if _MANY_DIGITS in body.translate(_DIGITS_ALIKE) else _carrying
        return decoder.decode(text)
    except RecursionError:
        raise TooDeep() from None
    except ValueError as why:
        raise NotJson(str(why)) from None


def read_carried(body: bytes) -> Any:
    """The value of a text that the proxy wrote, or will read: each number that it can't carry stays
    a marked text.
    """
    return _plain.decode(body.decode("utf-8"))


def write(value: Any) -> bytes:
    """The text of a value. Half a surrogate pair, which UTF-8 can't hold, is written as U+FFFD."""
    text = _encoder.encode(value)
    try:
        return text.encode("utf-8")
    except UnicodeEncodeError:
        return text.encode("utf-16", "surrogatepass").decode("utf-16", "replace").encode("utf-8")


def _unmarked(found: re.Match) -> str:
    """What stands in the place of a mark. A quote after a backslash begins no text."""
    if found.string[found.start() - 1] == "\\":
        return found[0]
    return found[1] or '"' + _MARK


def restore(body: bytes) -> bytes:
    """A text that came out of the proxy, with each number as it was written."""
    if _MARK_BYTES not in body:
        return body
    text = body.decode("utf-8")
    return _MARKED.sub(_unmarked, text).encode("utf-8")


def check_depth(value: Any, body: bytes) -> None:
    """Raises TooDeep for a value, which has this text, that nests deeper than the proxy carries."""
    if body.count(b"{") + body.count(b"[") <= DEPTH_LIMIT:
        return
    level = [value]
    for _ in range(DEPTH_LIMIT):
        level = [each for one in level for each in (one.values() if isinstance(one, dict) else one) if isinstance(each, (dict, list))]
        if not level:
            return
    raise TooDeep()
