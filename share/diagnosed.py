"""The last diagnostics of each file, as the proxy wrote them."""
from typing import Optional
from urllib.parse import unquote

_MOST_BYTES = 8 << 20


class Diagnosed:
    """Bodies of notifications by the file that they are about, up to a bound; the oldest go first.
    """

    def __init__(self) -> None:
        self._bodies: dict[str, bytes] = {}
        self._size = 0

    def keep(self, uri: str, body: bytes) -> None:
        """Keeps this body in place of the last one of that file."""
        self.drop(uri)
        self._bodies[unquote(uri)] = body
        self._size += len(body)
        while self._size > _MOST_BYTES:
            self.drop(next(iter(self._bodies)))

    def drop(self, uri: str) -> None:
        """Forgets what is kept of that file."""
        self._size -= len(self._bodies.pop(unquote(uri), b""))

    def last(self, uri: str) -> Optional[bytes]:
        """What is kept of that file."""
        return self._bodies.get(unquote(uri))
