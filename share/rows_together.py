"""Rows of .ci/share: what two editors have of one server."""
from room import Room
from scripted import wanted

URI = "file:///room/a.c"
_DIAGNOSTICS = "textDocument/publishDiagnostics"
_COMMAND = "workspace/executeCommand"


def _hover(editor, id=1, uri=URI):
    answer = editor.ask(id, "textDocument/hover", {"textDocument": {"uri": uri}, "position": {"line": 0, "character": 0}})
    return (answer.get("result") or {}).get("contents") if "result" in answer else answer["error"]["code"]


def _diagnosed(editor):
    params = editor.called(_DIAGNOSTICS)["params"]
    return params.get("version"), [each["message"] for each in params["diagnostics"]]


def _echoed(editor, id, value):
    editor.put(id=id, method=_COMMAND, params={"command": "echo", "arguments": [value]})


def sample_shared(room: Room) -> None:
    """Two editors before lsp_sample: one initialize, equal ids, a cancel, and status 0 at the end.
    """
    share = room.share_of([room.sample])
    first, second = room.editors(share)
    first.called("window/logMessage")
    for id in range(50):
        _echoed(first, id, "first %d" % id)
        _echoed(second, id, "second %d" % id)
    for id in range(50):
        wanted(first.answer(id)["result"] == "first %d" % id, "the first editor has its answer")
        wanted(second.answer(id)["result"] == "second %d" % id, "the second editor has its answer")
    first.put(id=77, method=_COMMAND, params={"command": "wait", "arguments": [1000]})
    first.tell("$/cancelRequest", {"id": 77})
    wanted(first.answer(77)["error"]["code"] == -32800, "the cancel reaches the request")
    first.leave()
    _echoed(second, 1, "alone")
    wanted(second.answer(1)["result"] == "alone", "the other goes on")
    second.leave()
    wanted(share.status() == 0, "the status is 0")
    share.left_nothing()


def numbers_carried(room: Room) -> None:
    """Floats, large integers, texts with the mark, halves of pairs, and ids that the proxy can't
    carry.
    """
    first, _ = room.editors(room.share())
    sent = {"a": 1.25, "b": [2 ** 63, -2 ** 63 - 1, 10 ** 30, 1e300, 0.1], "\ue0f71.5": "\ue0f71", "c": "\ue0f7\ue0f7", "d": '"\ue0f72\\"'}
    wanted(first.ask(1, "test/echo", sent)["result"] == sent, "what was sent comes back")
    first.send(b'Content-Length: 66\r\n\r\n{"jsonrpc":"2.0","id":2,"method":"test/echo","params":["\\ud800x"]}')
    wanted(first.answer(2)["result"] == ["\ufffdx"], "half a pair is replaced")
    for id in (2 ** 63, 1.5, "\ue0f75", None):
        wanted(first.ask(id, "test/echo", [1])["result"] == [1], "an answer under %r" % id)


def bad_messages_answered(room: Room) -> None:
    """What is no JSON, no message, or nests too deep is answered, and the next one too."""
    first, second = room.editors(room.share())
    for body, code in ((b"{", -32700), (b"NaN", -32700), (b"[]", -32600), (b"7", -32600), (b'{"id":true,"method":"x"}', -32600), (b'{"method":7}', -32600)):
        first.send(b"Content-Length: %d\r\n\r\n%b" % (len(body), body))
        wanted(first.answer(None)["error"]["code"] == code, "%r is answered %d" % (body, code))
    for depth, wants in ((124, True), (125, False), (400, False), (5000, False)):
        body = b'{"jsonrpc":"2.0","id":%d,"method":"test/echo","params":%b}' % (depth, b"[" * depth + b"]" * depth)
        first.send(b"Content-Length: %d\r\n\r\n%b" % (len(body), body))
        wanted(("result" in first.answer(depth)) == wants, "params that nest %d deep are %s" % (depth, "carried" if wants else "refused"))
    first.put(method="test/log", params={"message": "no id", "type": 3})
    second.called("window/logMessage")
    first.send(b'Content-Length: 30\r\n\r\n{"id":5,"method":"test/heard"}')
    wanted("result" in first.answer(5), "a request without jsonrpc is answered")


def bad_answers_repaired(room: Room) -> None:
    """A server's malformed answers reach the asker as errors under its id."""
    first, _ = room.editors(room.share())
    deep = "[" * 125 + "]" * 125
    deeper = "[" * 3000 + "]" * 3000
    for id, raw in enumerate(('{"id":ID}', '{"jsonrpc":"2.0","id":ID}', '{"id":ID,"error":{"code":5}}', '{"id":ID,"error":7}',
                              '{"id":ID,"error":{"code":1.5,"message":"m"}}', '{"id":ID,"result":null,"error":{"code":5,"message":"m","more":1}}',
                              '{"id":ID,"result":%s}' % deep, '{"id":ID,"result":%s}' % deeper, '{"result":%s,"id":"ID"}' % deeper)):
        wanted("error" in first.ask(id, "test/raw", raw), "%s is an error" % raw[:60])
    for id, raw in enumerate(('{"id":ID,"result":1}', '{"id":"ID","result":1}', '{"id":ID,"result":1,"error":null,"more":2}')):
        wanted(first.ask(id, "test/raw", raw).get("result") == 1, "%s is a result" % raw)
    wanted(first.ask(9, "test/garbage").get("result") == "after garbage", "garbage between frames is passed over")


def one_file(room: Room) -> None:
    """One file in two editors: one text, versions of each one's own, another text is said and
    refused, and handed on.
    """
    first, second = room.editors(room.share())
    first.open(URI, "one")
    wanted(_diagnosed(first) == (1, ["one"]), "the first is told the diagnostics")
    second.nothing(_DIAGNOSTICS)
    second.open("file:///room/a%2Ec", "one", 70)
    wanted(_diagnosed(second) == (70, ["one"]), "the second is told the last ones at its didOpen, under its own version")
    first.change(URI, 2, "two")
    wanted(_diagnosed(first) == (2, ["two"]), "the owner's change passes")
    second.nothing(_DIAGNOSTICS)
    wanted(_hover(second, uri="file:///room/a%2Ec") == -32801, "a request about another text is refused")
    second.called("window/showMessage")
    second.change(URI, 71, "own")
    wanted(_hover(first) == "two", "the change of another text goes no further")
    second.nothing("window/showMessage")
    second.change(URI, 72, "two")
    wanted(_diagnosed(second) == (72, ["two"]), "it has the owner's text, and the diagnostics")
    wanted(_hover(second, uri="file:///room/a%2Ec") == "two", "its hover is whole, however the URI is escaped")
    second.change(URI, 73, "three")
    wanted(_diagnosed(second) == (73, ["three"]), "it owns the text now")
    wanted(_hover(first) == -32801, "and the first has another")
    heard = [each for each in first.ask(3, "test/heard")["result"] if each[0].startswith("textDocument/did")]
    wanted(heard == [["textDocument/didOpen", 1], ["textDocument/didChange", 2], ["textDocument/didChange", 73]], "the server heard one editor: %s" % heard)


def file_handed_on(room: Room) -> None:
    """The owner closes or leaves: the other's file stays open, with the server's text or its own.
    """
    share = room.share()
    first, second = room.editors(share)
    third = room.editor(share)
    third.start()
    for editor, text, version in ((first, "one", 1), (second, "one", 5), (third, "other", 9)):
        editor.open(URI, text, version)
        editor.settle()
    third.called("window/showMessage")
    second.open("file:///room/alone.c", "alone")
    second.settle()
    wanted(_hover(third, uri="file:///room/alone.c") == "alone", "the server has another file")
    first.close(URI)
    first.settle()
    wanted(_hover(second) == "one", "the second's hover is whole after the first's didClose")
    second.change(URI, 6, "two")
    wanted(_hover(second) == "two", "and its changes pass")
    second.leave()
    wanted(_hover(third) == "other", "the third's text is the server's after the second left")
    wanted(_hover(third, uri="file:///room/alone.c") is None, "the leaver's other file is closed")
    third.close(URI)
    wanted(_hover(third) is None, "the last didClose passes")


def rename_versioned(room: Room) -> None:
    """The versions in a rename's edits are those of the editor that asked."""
    first, second = room.editors(room.share())
    first.open(URI, "one", 4)
    first.settle()
    second.open(URI, "one", 90)
    answer = second.ask(1, "textDocument/rename", {"textDocument": {"uri": URI, "version": 4}})
    wanted(answer["result"]["documentChanges"][0]["textDocument"]["version"] == 90, "the second's version: %s" % answer)


def edit_goes_to_asker(room: Room) -> None:
    """workspace/applyEdit goes to the editor whose command is at work; when that leaves, the server
    hears so.
    """
    first, second = room.editors(room.share())
    second.put(id=1, method=_COMMAND, params={"command": "x"})
    edit = second.called("workspace/applyEdit")
    second.put(id=edit["id"], result={"applied": True})
    wanted(second.answer(1)["result"] == {"applied": True}, "the command is answered with what the asker said")
    first.nothing("workspace/applyEdit")
    second.put(id=2, method=_COMMAND, params={"command": "x"})
    second.called("workspace/applyEdit")
    second.cut()
    first.ask(3, "test/sleep", 0.3)
    heard = first.ask(4, "test/heard")["result"]
    wanted(["$/cancelRequest", None] in heard, "its command is cancelled: %s" % heard)
    wanted(any(each[0] == "answer" and each[1].get("code") == -32603 for each in heard), "the server's request is answered for the one that left: %s" % heard)


def registrations_replayed(room: Room) -> None:
    """What the server registers, the other editor and a late one hear too; what it let go they
    don't.
    """
    share = room.share()
    first, second = room.editors(share)
    kinds = [{"id": "a", "method": "x"}, {"id": "b", "method": "y"}]
    first.put(id=1, method="test/register", params={"method": "client/registerCapability", "params": {"registrations": kinds}})
    first.put(id=first.called("client/registerCapability")["id"], result=None)
    second.put(id=second.called("client/registerCapability")["id"], result=None)
    first.answer(1)
    first.put(id=2, method="test/register", params={"method": "client/unregisterCapability", "params": {"unregisterations": kinds[:1]}})
    first.put(id=first.called("client/unregisterCapability")["id"], result=None)
    second.called("client/unregisterCapability")
    first.answer(2)
    late = room.editor(share)
    late.start(workspaceFolders=[{"uri": "file:///other", "name": "other"}])
    wanted(late.called("client/registerCapability")["params"]["registrations"] == kinds[1:], "the late one hears of what is left")
    heard = [each[0] for each in late.ask(1, "test/heard")["result"]]
    wanted("workspace/didChangeWorkspaceFolders" in heard, "its folder is added")


def initialize_prepared(room: Room) -> None:
    """The server watches lsp_share, counts in UTF-16, and an editor hears nothing before its
    initialize is answered.
    """
    share = room.share()
    first, second = room.editor(share), room.editor(share)
    seen = first.start(capabilities={"general": {"positionEncodings": ["utf-8", "utf-16"]}, "offsetEncoding": ["utf-8"]})["seen"]
    wanted(seen["processId"] == share.process.pid, "processId is that of lsp_share")
    wanted(seen["capabilities"] == {"general": {"positionEncodings": ["utf-16"]}, "offsetEncoding": ["utf-16"]}, "utf-16 alone")
    second.tell("nothing")
    first.tell("test/log", {"message": "early", "type": 3})
    first.called("window/logMessage")
    second.nothing("window/logMessage")
    second.start()
    second.called("window/logMessage")


ROWS = (sample_shared, numbers_carried, bad_messages_answered, bad_answers_repaired, one_file, file_handed_on, rename_versioned,
        edit_goes_to_asker, registrations_replayed, initialize_prepared)
