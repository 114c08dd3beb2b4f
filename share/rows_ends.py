"""Rows of .ci/share: arguments, sockets and signals."""
import os
import signal
import socket
import stat
import time

from room import Room
from scripted import UNRULY, Share, until, wanted

# Signals that stop or continue a process, that are ignored unless asked for, or that can't be
# caught.
_NO_END = {signal.SIGKILL, signal.SIGSTOP, signal.SIGTSTP, signal.SIGTTIN, signal.SIGTTOU, signal.SIGCONT, signal.SIGCHLD,
           signal.SIGURG, signal.SIGWINCH, signal.SIGPIPE, signal.SIGXFSZ}


def arguments_refused(room: Room) -> None:
    """EDITORS of 0 and 65, and other forms, give status 2."""
    for editors in ("0", "65", "-1", "+2", "x", "", "2 "):
        share = room.share(editors=editors)
        share.stays_out(2, "usage")
        wanted(not os.path.exists(share.path), "no socket is made for %r" % editors)


def socket_in_use(room: Room) -> None:
    """A socket at which somebody listens stays, and so does a file that is no socket; a folder that
    is gone is said.
    """
    share = room.share()
    first = room.editor(share)
    first.start()
    room.share().stays_out(3, "in use")
    first.ask(1, "test/echo", [1])
    first.leave()
    wanted(share.status() == 0, "the one that listened went on")
    file = os.path.join(room.folder, "file")
    with open(file, "w", encoding="utf-8") as made:
        made.write("kept")
    room.share(path=file).stays_out(3, "no socket")
    wanted(os.path.getsize(file) == 4, "the file stays")
    room.share(path=os.path.join(room.folder, "gone", "socket")).stays_out(3, "No such file")
    room.share(path=os.path.join(room.folder, "x" * 120)).stays_out(3, "too long")


def socket_of_another(room: Room) -> None:
    """A socket that is another user's stays. Who isn't root can't make one, and tries nothing."""
    path = os.path.join(room.folder, "socket")
    with socket.socket(socket.AF_UNIX) as made:
        made.bind(path)
    if os.geteuid() == 0:
        os.chown(path, 65534, 65534)
        room.share().stays_out(3, "another user")
        wanted(os.path.exists(path), "the socket stays")


def socket_is_private(room: Room) -> None:
    """Only its owner can open the socket."""
    share = room.share()
    wanted(stat.S_IMODE(os.stat(share.path).st_mode) == 0o600, "the mode is 0600")


def every_signal(room: Room) -> None:
    """Each signal that ends a process ends lsp_share with two editors: no process stays, and no
    socket.
    """
    numbers = sorted(signal.valid_signals() - _NO_END - set(range(signal.SIGRTMIN + 1, signal.SIGRTMAX)))
    for place in range(0, len(numbers), 13):
        shares = [(number, room.share_of([room.sample], path=os.path.join(room.folder, "s%d" % number))) for number in numbers[place:place + 13]]
        for number, share in shares:
            editor = room.editor(share)
            editor.put(id=1, method="initialize", params={"capabilities": {}})
            editor.answer(1)
        for number, share in shares:
            share.kill(number)
        for number, share in shares:
            wanted(share.status() == 128 + number, "the status after signal %d is %d" % (number, share.process.returncode))
            share.left_nothing()


def signal_at_any_time(room: Room) -> None:
    """SIGTERM at any time from the start on: no process stays, and no socket."""
    for step in range(16):
        share = Share(room.folder, room.proxy, UNRULY)
        if step >= 8:
            share.ready()
        time.sleep(step % 8 * 0.02)
        share.kill(signal.SIGTERM)
        wanted(share.status() in (128 + signal.SIGTERM, -signal.SIGTERM), "the status is %s" % share.process.returncode)
        share.left_nothing()


def killed_and_started_again(room: Room) -> None:
    """After SIGKILL the children end at their input's end, and the next start takes the socket
    over.
    """
    share = room.share()
    first, second = room.editors(share)
    share.kill()
    first.ended()
    second.ended()
    share.status()
    wanted(os.path.exists(share.path), "the socket stays")
    again = room.share()
    third = room.editor(again)
    third.start()
    until(lambda: not share.family(), "the old children end")
    third.leave()
    wanted(again.status() == 0, "the status is 0")
    again.left_nothing()


ROWS = (arguments_refused, socket_in_use, socket_of_another, socket_is_private, every_signal,
        signal_at_any_time, killed_and_started_again)
