"""The messages of an editor that are measured, and whole sessions of them."""

INITIALIZE = b'{"jsonrpc":"2.0","method":"initialize","params":{"capabilities":{}},"id":0}'
INITIALIZED = b'{"jsonrpc":"2.0","method":"initialized","params":{}}'
SHUTDOWN = b'{"jsonrpc":"2.0","method":"shutdown","id":0}'
SHUT_DOWN = b'{"jsonrpc":"2.0","result":null,"id":0}'
EXIT = b'{"jsonrpc":"2.0","method":"exit"}'
MAIN = b"file:///home/user/project/src/main.rs"
OPENED = 10_240


def frame(body):
    return b"Content-Length: %d\r\n\r\n%s" % (len(body), body)


def request(number, method, params):
    return b'{"jsonrpc":"2.0","method":"%s","params":%s,"id":%d}' % (method, params, number)


def notification(method, params):
    return b'{"jsonrpc":"2.0","method":"%s","params":%s}' % (method, params)


def refused(number):
    """An `initialize`, which is refused after the first."""
    return request(number, b"initialize", b'{"capabilities":{}}')


def note(_):
    return notification(b"$/x", b'{"x":1}')


def unknown(number):
    return request(number, b"foo/bar", b'{"x":1}')


def execute(number, command, argument):
    params = b'{"command":"%s","arguments":[%s]}' % (command, argument)
    return request(number, b"workspace/executeCommand", params)


def echo(number):
    return execute(number, b"echo", b"%d" % number)


def response(number):
    return b'{"jsonrpc":"2.0","result":null,"id":%d}' % number


def opened(number, line):
    """A document of 10 KB that is opened, all of one line."""
    document = (b'{"uri":"file:///home/user/a.rs","languageId":"rust","version":%d,"text":"%s"}'
                % (number, line * (OPENED // len(line))))
    return notification(b"textDocument/didOpen", b'{"textDocument":%s}' % document)


def escaped(number):
    return opened(number, rb'    let value = compute(\"x\", 1);\n')


def plain(number):
    return opened(number, b"let value = compute(x, 1); // y ")


def hover(number):
    params = b'{"textDocument":{"uri":"%s"},"position":{"line":12,"character":34}}' % MAIN
    return b'{"jsonrpc":"2.0","id":%d,"method":"textDocument/hover","params":%s}' % (number, params)


def change(number):
    place = b'{"line":12,"character":34}'
    edit = b'{"range":{"start":%s,"end":%s},"rangeLength":0,"text":"x"}' % (place, place)
    document = b'{"uri":"%s","version":%d}' % (MAIN, number)
    return notification(
        b"textDocument/didChange", b'{"textDocument":%s,"contentChanges":[%s]}' % (document, edit))


def mixed(number):
    """In turn an `echo`, a `wait` of up to three polls, an unknown method, and `initialized`, which is greeted."""
    if number % 4 == 0:
        return execute(number, b"echo", b'"text of an answer"')
    if number % 4 == 1:
        return execute(number, b"wait", b"%d" % (number // 4 % 4))
    if number % 4 == 2:
        return request(number, b"textDocument/unknown", b"{}")
    return INITIALIZED


def session(body, count, *last):
    """Gives what writes to a file the frames of a start, so many messages, and the last ones."""
    def write(file):
        file.write(frame(INITIALIZE))
        for number in range(1, count + 1):
            file.write(frame(body(number)))
        file.write(b"".join(map(frame, last)))
    return write
