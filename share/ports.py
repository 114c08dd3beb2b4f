"""What the switch needs of the world."""
from typing import Protocol


class Ports(Protocol):
    """Where messages go."""

    def to_proxy(self, body: bytes) -> None:
        """Sends a body to the proxy."""

    def to_server(self, body: bytes) -> None:
        """Sends a body to the server."""

    def to_editor(self, side: int, body: bytes) -> None:
        """Sends a body to an editor."""

    def close_editor(self, side: int) -> None:
        """Lets an editor go, once it has what was sent."""

    def all_left(self) -> None:
        """Nobody is left."""

    def say(self, words: str) -> None:
        """Tells the one who started lsp_share."""
