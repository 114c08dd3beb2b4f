#!/usr/bin/env python3
"""Measures the proxy's program with many requests that wait for a response.

Two editors send SIZE requests, which stay open. Then, with those open, EVENTS further events are measured: a
request of an editor, the server's response to it, a request that is refused because its id is open, and a
cancel of an open request. The same with SIZE requests of the server that stay open under one id: a request of the
server under that id, an editor's response to it, a response to one in the midst of those that are open, and a
request of the server in its place, so that responses come in another order than requests.

Then the server sends NOTES notifications of about 13 KB to each number of editors in EDITORS. The time is the
processor's in all.

Usage: bench/proxy.py [PROGRAM [PROGRAM]] [SIZE ..]     (default: 1000 10000 100000)
"""
import subprocess

import measured
from measured import LIMIT, Figure, Row
from sessions import frame

EVENTS = 100_000
LAST = b'{"jsonrpc":"2.0","method":"last"}'
EDITORS = (1, 8, 64)
NOTES = 200
DIAGNOSTIC = (b'{"message":"unused variable %d",'
              b'"range":{"end":{"character":9,"line":%d},"start":{"character":5,"line":%d}}}')


def told(side, message):
    return frame(b'{"jsonrpc":"2.0","method":"proxy/in","params":{"message":%s,"side":%d}}' % (message, side))


def sent(side, message):
    return frame(b'{"jsonrpc":"2.0","method":"proxy/out","params":{"message":%s,"side":%d}}' % (message, side))


def request(number):
    return b'{"id":%d,"jsonrpc":"2.0","method":"x"}' % number


def opened(size):
    """The requests that stay open: the id of the server's request is the number of the request."""
    for number in range(size):
        yield told(1 + number % 2, request(number))


def answered(size):
    """The events that are measured, four at a time; the first of four draws an id."""
    for number in range(EVENTS // 4):
        drawn = size + number
        yield told(1, request(drawn))
        yield told(0, b'{"id":%d,"jsonrpc":"2.0","result":null}' % drawn)
        open_id = number * 7919 % size
        yield told(1 + open_id % 2, request(open_id))
        yield told(1 + open_id % 2, b'{"jsonrpc":"2.0","method":"$/cancelRequest","params":{"id":%d}}' % open_id)
    yield told(1, LAST)


def opened_alike(size):
    """The requests of the server that stay open, all under one id."""
    return (told(0, request(7)) for _ in range(size))


def responded(drawn):
    return told(1, b'{"id":%d,"jsonrpc":"2.0","result":null}' % drawn)


def answered_alike(size):
    """The events that are measured, four at a time; the first and the last of four draw an id."""
    midst = [number * 7919 % size for number in range(min(size, EVENTS // 4))]
    for number in range(EVENTS // 4):
        drawn = size + 2 * number
        place = number % len(midst)
        yield told(0, request(7))
        yield responded(drawn)
        yield responded(midst[place])
        yield told(0, request(7))
        midst[place] = drawn + 1
    yield told(1, LAST)


def note():
    """A notification of the server: 120 diagnostics of one document."""
    diagnostics = b",".join(DIAGNOSTIC % (number, number, number) for number in range(120))
    return (b'{"jsonrpc":"2.0","method":"textDocument/publishDiagnostics",'
            b'"params":{"diagnostics":[%s],"uri":"file:///a"}}' % diagnostics)


def feed(proxy, path, last):
    """Seconds of the processor until the last message has come, where a child feeds the file to the proxy."""
    begun = measured.processor_seconds(proxy)
    feeder = subprocess.Popen(["cat", path], stdout=proxy.stdin)
    measured.await_end(proxy, last)
    seconds = measured.processor_seconds(proxy) - begun
    feeder.wait(LIMIT)
    return seconds


def fed(program, editors, before, awaited, after):
    """Seconds for the second file after the first, which ends with the awaited message, and kilobytes."""
    proxy = subprocess.Popen([program, "%d" % editors], stdin=subprocess.PIPE, stdout=subprocess.PIPE)
    feed(proxy, before, awaited)
    seconds = feed(proxy, after, sent(0, LAST))
    kilobytes = measured.peak(proxy)
    proxy.stdin.close()
    proxy.stdout.read()
    measured.await_exit(proxy)
    return seconds, kilobytes


def events(size):
    title = "an event of the proxy, {:,} open requests".format(size)

    def run(program, before, after):
        seconds, kilobytes = fed(program, 2, before, sent(0, request(size - 1)), after)
        return seconds * 1e6 / EVENTS, kilobytes
    inputs = [lambda file: file.writelines(opened(size)), lambda file: file.writelines(answered(size))]
    return Row("proxy/events", "lsp_proxy_main", [Figure(title, "us"), Figure(title, "peak KiB", max)], run, inputs)


def events_alike(size):
    title = "an event of the proxy, {:,} open requests under one id".format(size)

    def run(program, before, after):
        seconds, kilobytes = fed(program, 2, before, sent(1, request(size - 1)), after)
        return seconds * 1e6 / EVENTS, kilobytes
    inputs = [lambda file: file.writelines(opened_alike(size)), lambda file: file.writelines(answered_alike(size))]
    return Row("proxy/alike", "lsp_proxy_main", [Figure(title, "us"), Figure(title, "peak KiB", max)], run, inputs)


def broadcast(editors):
    title = "a notification of {:,} bytes, editors: {}".format(len(note()), editors)

    def run(program, before, after):
        return [fed(program, editors, before, sent(0, LAST), after)[0] * 1e3 / NOTES]
    inputs = [lambda file: file.write(told(1, LAST)),
              lambda file: file.write(told(0, note()) * NOTES + told(1, LAST))]
    return Row("proxy/broadcast", "lsp_proxy_main", [Figure(title, "ms")], run, inputs)


def rows(sizes):
    yield from map(events, sizes.or_else(1_000, 10_000, 100_000))
    yield from map(events_alike, sizes.or_else(1_000, 10_000, 100_000))
    yield from map(broadcast, EDITORS)


if __name__ == "__main__":
    measured.main(rows, __doc__)
