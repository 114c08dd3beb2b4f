#!/usr/bin/env python3
"""Measures lsp_share: round trips with clangd, direct and through it, and beside an unread editor.

Hovers are asked one after the other of a server alone, and of one behind lsp_share, lsp_join and
lsp_proxy, in turn, with a second editor that has joined too. Then one editor reads none of 80 MB,
while another's round trips are measured: answers of 100 KB, which it asks for one after the other and
all at once, and diagnostics of 13 KB that the server sends as fast as they are taken.

Usage: bench/share.py [PROXY]     (default: what stands in crates/lsp_proxy_main/out)
"""
import os
import sys
import tempfile
import time

from measured import ROOT

sys.path.insert(0, os.path.join(ROOT, "share"))

from room import Room
from scripted import Editor, peak

PROXY = os.path.join(ROOT, "crates", "lsp_proxy_main", "out", "lsp_proxy_main")
CLANGD = ["clangd", "--log=error"]
TEXT = "int add(int first, int second) { return first + second; }\nint main(void) { return add(1, 2); }\n"
URI = "file:///unread.c"
HOVERS, TURNS, TRIPS = 300, 5, 400
UNREAD, SIZE = 800, 100_000
SENT, SENT_SIZE = 6150, 13_000


def opened(editor, path):
    """Starts, opens the file, and waits until the server knows it."""
    editor.start(rootUri="file://" + os.path.dirname(path))
    editor.open("file://" + path, TEXT)
    editor.called("textDocument/publishDiagnostics")


def hovers(editor, path):
    """Milliseconds of each hover."""
    params = {"textDocument": {"uri": "file://" + path}, "position": {"line": 1, "character": 25}}
    for number in range(HOVERS):
        begun = time.perf_counter()
        answer = editor.ask(number, "textDocument/hover", params)
        yield (time.perf_counter() - begun) * 1000
        if not answer.get("result"):
            sys.exit("no hover: %s" % answer)


def shown(words, milliseconds):
    """Prints how long it took."""
    times = sorted(milliseconds)
    middle, high = times[len(times) // 2], times[len(times) * 99 // 100]
    print("%s: p50 %.2f ms, p99 %.2f ms, most %.2f ms" % (words, middle, high, times[-1]), flush=True)


def round_trips(proxy, folder):
    """Hovers, direct and through lsp_share, in turn."""
    path = os.path.join(folder, "a.c")
    with open(path, "w", encoding="utf-8") as file:
        file.write(TEXT)
    with Room(proxy, "") as room:
        direct = Editor("", command=CLANGD)
        share = room.share_of(CLANGD, editors=3)
        beside, through = room.editors(share)[0], room.editor(share, True)
        opened(direct, path)
        opened(through, path)
        for _ in range(TURNS):
            shown("hover, direct", hovers(direct, path))
            shown("hover, through lsp_share", hovers(through, path))
        direct.cut()
        beside.leave()
        through.leave()


def asks_slowly(first, second, number):
    """Asks for an answer, two before each round trip."""
    for each in (2 * number, 2 * number + 1):
        second.put(id=each, method="test/big", params=SIZE)
    return number < UNREAD // 2


def asks_at_once(first, second, number):
    """Asks for all answers before the first round trip."""
    for each in range(0 if number else UNREAD):
        second.put(id=each, method="test/big", params=SIZE)
    return number < TRIPS


def is_sent(first, second, number):
    """Is sent diagnostics of a file that it alone has open, until all are."""
    if not number:
        second.open(URI, "")
        first.put(id="sent", method="test/stream", params={"uri": URI, "count": SENT, "size": SENT_SIZE})
    return not first.has("sent")


def unread(proxy, act, sides):
    """Round trips of one editor while another acts so, and reads nothing."""
    with Room(proxy, "") as room:
        share = room.share(editors=sides)
        first, second = room.editors(share)
        trips = []
        while act(first, second, len(trips)):
            begun = time.perf_counter()
            first.ask(len(trips), "test/echo", [len(trips)])
            trips.append((time.perf_counter() - begun) * 1000)
        shown("80 MB unread, %s, %d sides: echo of the other" % (act.__name__, sides), trips)
        print("lsp_share's most memory: %d KiB; %s" % (peak(share.process.pid), share.said().strip() or "nothing said"))


def main():
    """Measures both."""
    proxy = os.path.abspath(sys.argv[1]) if len(sys.argv) > 1 else PROXY
    for act, sides in ((asks_slowly, 2), (asks_at_once, 2), (is_sent, 2), (is_sent, 4)):
        unread(proxy, act, sides)
    with tempfile.TemporaryDirectory() as folder:
        round_trips(proxy, folder)


main()
