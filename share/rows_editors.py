"""Rows of .ci/share: editors that die, say what is no frame, never read, or are too many."""
import socket
import time

from frames import frame
from room import Room
from scripted import MB, peak, until, wanted


def editor_asks_and_never_reads(room: Room) -> None:
    """An editor that asks for 24 MB and reads none isn't read any more, until it reads; the other's
    round trip stays short.
    """
    share = room.share()
    first, second = room.editors(share)
    trips = []
    for id in range(24):
        second.put(id=id, method="test/big", params=MB)
        # once the first answer begins to come, it isn't read any more
        until(second.is_sent_to, "an answer begins to come")
        begun = time.monotonic()
        first.ask(id, "test/echo", [id])
        trips.append(time.monotonic() - begun)
    wanted(sorted(trips)[12] < 0.1, "a round trip takes %.3f s" % sorted(trips)[12])
    wanted(peak(share.process.pid) < 64 << 10, "under 64 MiB: %d KiB" % peak(share.process.pid))
    wanted(len(second.answer(23)["result"]) == MB, "it has every answer once it reads: %s" % share.said())


def editor_says_all_at_once(room: Room) -> None:
    """An editor that asks for 24 MB at once and reads none is let go; the other goes on."""
    share = room.share()
    first, second = room.editors(share)
    second.send(b"".join(frame(b'{"id":%d,"method":"test/big","params":%d}' % (id, MB)) for id in range(24)))
    until(lambda: "doesn't read" in share.said(), "it is let go")
    wanted(first.ask(1, "test/echo", [1])["result"] == [1], "the other goes on")
    second.ended()
    wanted(peak(share.process.pid) < 64 << 10, "under 64 MiB: %d KiB" % peak(share.process.pid))


def editor_dies_within_frame(room: Room) -> None:
    """An editor that dies within a frame, and one that sends half a head and waits: the others go
    on, and the end comes.
    """
    share = room.share()
    first, second = room.editors(share)
    half = room.editor(share)
    half.send(b"Content-Len")
    second.send(b'Content-Length: 100\r\n\r\n{"jsonrpc":"2.0"')
    second.cut()
    wanted(first.ask(1, "test/echo", [1])["result"] == [1], "the first goes on")
    dead = room.editor(share)
    dead.send(b"Content-Length: 9\r\n\r\n{")
    dead.cut()
    first.leave()
    half.ended()
    wanted(share.status() == 0, "the status is 0")
    share.left_nothing()


def bad_frames_answered(room: Room) -> None:
    """A head without a length is answered, and the next frame is read; a body that is too long ends
    the editor.
    """
    share = room.share()
    first, second = room.editors(share)
    first.send(b"Content-Size: 5\r\n\r\n")
    wanted(first.answer(None)["error"]["code"] == -32700, "a head without a length")
    first.send(b"x" * 9000)
    wanted(first.answer(None)["error"]["code"] == -32700, "a head that is too long")
    wanted(first.ask(1, "test/echo", [1])["result"] == [1], "the next frame is read")
    second.send(b"Content-Length: 99999999999\r\n\r\n")
    wanted(second.answer(None)["error"]["code"] == -32700, "a body that is too long")
    second.ended()
    first.leave()
    wanted(share.status() == 0, "the status is 0")


def one_editor_too_many(room: Room) -> None:
    """An editor without a side is answered and let go. One that only looks takes no side."""
    share = room.share(editors=2)
    for _ in range(3):
        with socket.socket(socket.AF_UNIX) as looks:
            looks.connect(share.path)
    first, second = room.editors(share)
    third = room.editor(share, True)
    third.put(id=1, method="initialize", params={})
    wanted(third.answer(1)["error"]["code"] == -32603, "it is answered")
    third.ended()
    first.leave()
    second.leave()
    wanted(share.status() == 0, "the status is 0")


def join_without_share(room: Room) -> None:
    """lsp_join where nobody listens ends with 69."""
    share = room.share("die")
    share.status()
    editor = room.editor(share, True)
    wanted(editor.process.wait(10) == 69, "the status is 69")


ROWS = (editor_asks_and_never_reads, editor_says_all_at_once, editor_dies_within_frame, bad_frames_answered,
        one_editor_too_many, join_without_share)
