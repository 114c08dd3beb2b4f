"""Tests of the switch, with what the proxy writes made up."""
import json
import unittest

from messages import failure, notification, request
from sides import folders_of
from switch import Switch


def _out(side, message):
    """What the proxy writes for a message to a side: members in the order of their names."""
    return json.dumps({"jsonrpc": "2.0", "method": "proxy/out", "params": {"message": dict(sorted(message.items())), "side": side}},
                      ensure_ascii=False, separators=(",", ":")).encode("utf-8")


class Ports:
    """Keeps what is sent."""

    def __init__(self):
        self.sent, self.closed, self.said = [], [], []
        self.is_over = False

    def to_proxy(self, body):
        """Keeps the side and the message."""
        params = json.loads(body)["params"]
        self.sent.append(("proxy", params["side"], params["message"]))

    def to_server(self, body):
        """Keeps the message."""
        self.sent.append(("server", 0, json.loads(body)))

    def to_editor(self, side, body):
        """Keeps the side and the message."""
        self.sent.append(("editor", side, json.loads(body)))

    def close_editor(self, side):
        """Keeps the side."""
        self.closed.append(side)

    def all_left(self):
        """Notes the end."""
        self.is_over = True

    def say(self, words):
        """Keeps the words."""
        self.said.append(words)

    def taken(self):
        """What was sent, which is taken out."""
        sent, self.sent = self.sent, []
        return [(to, side, message.get("method", message.get("error", {}).get("code", "result"))) for to, side, message in sent]


class Switches(unittest.TestCase):
    """What becomes of a message."""

    def setUp(self):
        self.ports = Ports()
        self.switch = Switch(3, self.ports)

    def _join(self, is_ready=True):
        side = self.switch.join()
        if is_ready:
            self._say(side, request("i", "initialize", {}))
            self.switch.from_proxy(_out(side, {"jsonrpc": "2.0", "id": "i", "result": {}}))
        self.ports.taken()
        return side

    def _say(self, side, message):
        self.switch.from_editor(side, json.dumps(message).encode("utf-8"))

    def test_nothing_before_initialize(self):
        self._join(is_ready=False)
        self.switch.from_proxy(_out(1, notification("a")))
        self.switch.from_proxy(_out(1, request(4, "b", None)))
        self.assertEqual(self.ports.taken(), [])
        self._say(1, request("i", "initialize", {}))
        self.switch.from_proxy(_out(1, failure("i", -1, "no")))
        self.assertEqual(self.ports.taken(), [("proxy", 1, "initialize"), ("editor", 1, -1)])
        self._say(1, request("j", "initialize", {}))
        self.switch.from_proxy(_out(1, {"jsonrpc": "2.0", "id": "j", "result": {}}))
        self.assertEqual(self.ports.taken()[1:], [("editor", 1, "result"), ("editor", 1, "a"), ("editor", 1, "b")])

    def test_asked_where_somebody_is(self):
        self._join(is_ready=False)
        self._join()
        self.switch.from_proxy(_out(1, request(4, "a", None)))
        self.switch.from_proxy(_out(1, notification("$/cancelRequest", {"id": 4})))
        self.assertEqual(self.ports.taken(), [("editor", 2, "a"), ("editor", 2, "$/cancelRequest")])
        self._say(1, {"jsonrpc": "2.0", "id": 4, "result": None})
        self._say(2, {"jsonrpc": "2.0", "id": 4, "result": None})
        self.assertEqual(self.ports.taken(), [("proxy", 1, "result")])
        self._say(2, request("s", "shutdown", None))
        self.switch.leave(1)
        self.ports.taken()
        self.switch.from_proxy(_out(2, request(5, "a", None)))
        self.switch.from_proxy(_out(3, request(6, "a", None)))
        self.assertEqual(self.ports.taken(), [("proxy", 2, -32603), ("proxy", 3, -32603)])

    def test_last_one_leaves(self):
        self._join()
        self._say(1, request(1, "x", None))
        self._say(1, notification("exit"))
        self.assertEqual(self.ports.taken(), [("proxy", 1, "x"), ("proxy", 1, "$/cancelRequest"), ("proxy", 1, "exit"),
                                              ("proxy", 2, "exit"), ("proxy", 3, "exit")])
        self.assertEqual((self.ports.closed, self.ports.is_over, self.switch.join()), ([1], True, None))
        self._say(1, request(2, "x", None))
        self.switch.leave(1)
        self.assertEqual(self.ports.taken(), [])

    def test_shutdown_closes_files_first(self):
        self._join()
        self._say(1, notification("textDocument/didOpen", {"textDocument": {"uri": "file:///a", "version": 1, "text": ""}}))
        self._say(1, request(1, "shutdown", None))
        self._say(1, notification("textDocument/didClose", {"textDocument": {"uri": "file:///a"}}))
        self.assertEqual(self.ports.taken(), [("proxy", 1, "textDocument/didOpen"), ("proxy", 1, "textDocument/didClose"), ("proxy", 1, "shutdown")])

    def test_open_requests_are_answered(self):
        self._join()
        for id in (1, "1", 1.5, None):
            self._say(1, request(id, "x", None))
        self.ports.sent.clear()
        self.switch.from_proxy(_out(1, {"jsonrpc": "2.0", "id": 1, "result": 5}))
        self.switch.ended("gone")
        self.assertEqual([message["id"] for _, _, message in self.ports.sent], [1, "1", 1.5, None])

    def test_folders(self):
        uri = "file:///a/b"
        for params, wanted in (({"rootUri": uri}, [{"uri": uri, "name": "b"}]), ({"rootUri": None}, []), ({}, []), (None, []),
                               ({"rootUri": uri, "workspaceFolders": [{"uri": "x", "name": "y"}, 5]}, [{"uri": "x", "name": "y"}])):
            self.assertEqual(folders_of(request(1, "initialize", params)), wanted)

    def test_lost_messages(self):
        self._join()
        deep = json.loads("[" * 130 + "]" * 130)
        self._say(1, request(1, "x", deep))
        self._say(1, notification("y", deep))
        self.switch.from_server(json.dumps({"id": 4, "result": deep}).encode("ascii"))
        self.switch.from_server(json.dumps(request(5, "z", deep)).encode("ascii"))
        self.switch.from_server(b"[]")
        self.assertEqual(self.ports.taken(), [("editor", 1, -32603), ("proxy", 0, -32603), ("server", 0, -32603)])
        self.assertEqual(len(self.ports.said), 2)


if __name__ == "__main__":
    unittest.main()
