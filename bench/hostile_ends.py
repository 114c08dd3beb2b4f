"""Inputs and outputs that fail: closed, full, reset."""
import os
import socket
import struct

from hostile_input import EXIT, INITIALIZE, INITIALIZED, SHUTDOWN, expect
from hostile_run import Failure, Fed, Row, frame

SESSION = frame(INITIALIZE) + frame(SHUTDOWN) + frame(EXIT)
READ_FAULT, WRITE_FAULT = 3, 4


def output(open_one, status):
    """A session whose output is what that opens."""
    def run(program):
        with open_one() as end, Fed(program, stdout=end) as server:
            server.feed([SESSION])
            return server.ends(status)
    return run


def full():
    return open("/dev/full", "wb")


def read_only():
    return open("/dev/null", "rb")


def pipe_without_reader():
    reader, writer = os.pipe()
    os.close(reader)
    return os.fdopen(writer, "wb")


def reset_socket():
    """A connection whose other end has sent a reset."""
    with socket.create_server(("127.0.0.1", 0)) as server:
        here = socket.create_connection(server.getsockname())
        there, _ = server.accept()
    there.setsockopt(socket.SOL_SOCKET, socket.SO_LINGER, struct.pack("ii", 1, 0))
    there.close()
    return here


def input_of(open_one, status):
    """A session whose input is what that opens."""
    def run(program):
        with open_one() as end, Fed(program, stdin=end) as server:
            expect(server.counted(), 0, "messages")
            return server.ends(status)
    return run


def write_only():
    return open("/dev/null", "wb")


class Folder:
    """A folder that is opened as a file: each read fails."""

    def __enter__(self):
        self.number = os.open("/", os.O_RDONLY)
        return self.number

    def __exit__(self, *_):
        os.close(self.number)


def closed(redirection, status):
    """The shell closes an end before the program starts."""
    def run(program):
        words = ["sh", "-c", 'exec "$@" ' + redirection, "sh", *program]
        with Fed(words) as server:
            server.feed([SESSION])
            if server.counted() > (2 if status == 0 else 0):
                raise Failure("FAILED: too many messages")
            return server.ends(status)
    return run


def reset_later(program, input_ends=False):
    """The reader takes the first answer, and goes with a reset. A thread that reads is waited for then, to the end of
    input."""
    with socket.create_server(("127.0.0.1", 0)) as listening:
        here = socket.create_connection(listening.getsockname())
        there, _ = listening.accept()
    with here, Fed(program, stdout=here) as server:
        os.write(server.process.stdin.fileno(), frame(INITIALIZE))
        wanted = frame(INITIALIZED)
        expect(there.recv(len(wanted), socket.MSG_WAITALL), wanted, "the first answer")
        there.setsockopt(socket.SOL_SOCKET, socket.SO_LINGER, struct.pack("ii", 1, 0))
        there.close()
        os.write(server.process.stdin.fileno(), frame(SHUTDOWN))
        if input_ends:
            server.process.stdin.close()
        return server.ends(WRITE_FAULT)


def reset_at_the_end(program):
    return reset_later(program, True)


def rows_of_one_thread():
    yield Row("output is reset after an answer, while input waits", 4_000, 1, reset_later)


def rows(_):
    yield Row("output is full", 4_000, 1, output(full, WRITE_FAULT))
    yield Row("output can't be written", 4_000, 1, output(read_only, WRITE_FAULT))
    yield Row("output is a pipe without a reader", 4_000, 1, output(pipe_without_reader, WRITE_FAULT))
    yield Row("output is closed", 4_000, 1, closed(">&-", WRITE_FAULT))
    yield Row("output is reset", 4_000, 1, output(reset_socket, WRITE_FAULT))
    yield Row("output is reset after an answer", 4_000, 1, reset_at_the_end)
    yield Row("input is a folder", 4_000, 1, input_of(Folder, READ_FAULT))
    yield Row("input can't be read", 4_000, 1, input_of(write_only, READ_FAULT))
    yield Row("input is closed", 4_000, 1, closed("<&-", READ_FAULT))
    yield Row("input is reset", 4_000, 1, input_of(reset_socket, READ_FAULT))
