"""Rows of .ci/share: servers, and a proxy, that aren't there, die, never answer, or flood."""
import os
import signal

from room import Room
from scripted import MB, UNRULY, peak, wanted


def server_missing(room: Room) -> None:
    """A server that isn't there, and a proxy that isn't, give status 69, and no socket stays."""
    for options in ({"server": ["/nowhere/server"]}, {"server": [room.folder]}, {"server": [*UNRULY, "deaf"], "proxy": "/nowhere/proxy"}):
        share = room.share_of(**options)
        share.stays_out(69, "can't be started")
        share.left_nothing()


def server_dies(room: Room) -> None:
    """Each open request is answered, every connection ends, and the status is 1; the same where it
    dies at once.
    """
    share = room.share()
    first, second = room.editors(share)
    second.put(id="open", method="test/silent")
    first.put(id=1, method="test/die")
    wanted(first.answer(1)["error"]["code"] == -32603, "the one that asked is answered")
    wanted(second.answer("open")["error"]["code"] == -32603, "the other too")
    first.ended()
    second.ended()
    wanted(share.status() == 1, "the status is 1")
    share.left_nothing()
    share = room.share("die")
    wanted(share.status() == 1, "the status is 1 where it dies at once")
    share.left_nothing()


def server_is_mute(room: Room) -> None:
    """A server that never answers is ended some time after the last editor has left."""
    share = room.share("mute")
    first = room.editor(share)
    first.put(id=1, method="initialize", params={})
    first.nothing("x")
    first.leave()
    wanted(share.status() == 1, "the status is 1")
    share.left_nothing()


def server_is_deaf(room: Room) -> None:
    """A server deaf to shutdown, the end of its input and SIGTERM is killed, with the process that
    it started.
    """
    share = room.share("deaf", "child")
    first = room.editor(share)
    first.start()
    first.leave()
    wanted(share.status() == 1, "the status is 1")
    share.left_nothing()


def server_reads_nothing(room: Room) -> None:
    """A server that doesn't read any more: its editors aren't read, but that they go is seen."""
    share = room.share()
    first, second = room.editors(share)
    first.put(id=1, method="test/sleep", params=300)
    wanted(first.fill() > 150_000, "the first says more than is taken")
    first.cut()
    second.cut()
    wanted(share.status() == 1, "the status is 1")
    share.left_nothing()


def child_holds_output(room: Room) -> None:
    """A server that ends while a process of its own holds its output open: the end is seen, and
    nothing stays.
    """
    share = room.share("child")
    first = room.editor(share)
    first.start()
    first.leave()
    wanted(share.status() == 0, "the status is 0")
    share.left_nothing()


def server_floods(room: Room) -> None:
    """24 MB that one editor doesn't read: it is let go, the other goes on, and memory stays small.
    """
    share = room.share()
    first, second = room.editors(share)
    first.put(id=1, method="test/flood", params=[24, MB])
    wanted(first.take(lambda m: m.get("id") == 1, "the flood's end", 20)["result"] == 24, "the one that reads has all")
    wanted("doesn't read" in share.said(), "the other is let go")
    wanted(first.ask(2, "test/echo", [2])["result"] == [2], "the one that reads goes on")
    wanted(peak(share.process.pid) < 64 << 10, "the most memory is under 64 MiB: %d KiB" % peak(share.process.pid))
    first.leave()
    wanted(share.status() == 0, "the status is 0")


def proxy_dies(room: Room) -> None:
    """Where the proxy ends, the server is ended too, and each open request is answered."""
    share = room.share()
    first = room.editor(share)
    first.start()
    first.put(id=1, method="test/silent")
    first.ask(2, "test/echo", [])
    for pid in share.family():
        with open("/proc/%d/cmdline" % pid, "rb") as file:
            if os.fsencode(room.proxy) in file.read():
                os.kill(pid, signal.SIGKILL)
    wanted(first.answer(1)["error"]["code"] == -32603, "the open request is answered")
    first.ended()
    wanted(share.status() == 1, "the status is 1")
    share.left_nothing()


ROWS = (server_missing, server_dies, server_is_mute, server_is_deaf, server_reads_nothing,
        child_holds_output, server_floods, proxy_dies)
