"""The form in which messages go into the proxy and come out of it, each with its side."""
from frames import BODY_LIMIT
from messages import Message
from values import check_depth, write

SERVER = 0
_INTO = b'{"jsonrpc":"2.0","method":"proxy/in","params":{"message":%b,"side":%d}}'
_OUT = b'{"jsonrpc":"2.0","method":"proxy/out","params":{"message":'
_SIDE = b',"side":'


class TooLong(ValueError):
    """The message is longer than the proxy reads."""


def wrap(side: int, message: Message) -> bytes:
    """The body that tells the proxy a message of this side. Raises TooDeep and TooLong."""
    body = _INTO % (write(message), side)
    check_depth(message, body)
    if len(body) > BODY_LIMIT:
        raise TooLong("it is too long")
    return body


def unwrap(body: bytes) -> tuple[int, bytes]:
    """The side that a body of the proxy is for, and the body of the message."""
    if not body.startswith(_OUT):
        raise ValueError("the proxy wrote %r" % body[:100])
    message, _, side = body[len(_OUT):-2].rpartition(_SIDE)
    return int(side), message
