"""Tests of texts, files and the requests of the server."""
import random
import unittest

from asks import REGISTER, Asks
from diagnosed import Diagnosed
from files import Files
from messages import notification, request
from sides import Editor, Stage
from text import Text

URI = "file:///a.c"


def _range(first, last):
    return {"start": {"line": first[0], "character": first[1]}, "end": {"line": last[0], "character": last[1]}}


def _did(kind, version=None, **more):
    document = {"uri": URI, "version": version, **more.pop("document", {})}
    return notification("textDocument/did" + kind, {"textDocument": document, **more})


def _open(text, version):
    return _did("Open", version, document={"text": text})


def _change(text, version):
    return _did("Change", version, contentChanges=[{"text": text}])


class Texts(unittest.TestCase):
    """Changes of a text."""

    def _changed(self, text, first, last, new):
        kept = Text(text)
        kept.change([{"range": _range(first, last), "text": new}])
        return kept.whole()

    def test_ranges(self):
        self.assertEqual(self._changed("a\nb\r\nc\rd", (1, 0), (2, 1), "X"), "a\nX\rd")
        self.assertEqual(self._changed("ab\ncd", (0, 1), (1, 1), ""), "ad")
        self.assertEqual(self._changed("\U0001f600x", (0, 2), (0, 3), "y"), "\U0001f600y")
        self.assertEqual(self._changed("ab\ncd", (0, 9), (7, 0), "!"), "ab!")
        self.assertEqual(self._changed("", (0, 0), (0, 0), "new"), "new")
        self.assertEqual(self._changed("a\rb", (1, 0), (1, 0), "\n"), "a\r\nb")
        self.assertEqual(self._changed("a\n", (1, 0), (1, 0), "b"), "a\nb")
        self.assertEqual(self._changed("a", (1, 0), (1, 0), "b"), "ab")
        self.assertEqual(self._changed("a\nb\nc", (2, 1), (0, 0), "!"), "a\nb\nc!")

    def test_no_change(self):
        for change in (5, {}, {"text": 1}, {"range": 1, "text": ""}, {"range": _range((0, 0), (0, "x")), "text": ""}):
            text = Text("a")
            text.change([change, {"range": _range((0, 1), (0, 1)), "text": "b"}])
            self.assertEqual(text.whole(), "ab")

    def test_as_by_characters(self):
        random.seed(5)
        text, lines = Text("one\ntwo\n\nthree"), "one\ntwo\n\nthree"
        for _ in range(600):
            first, last = sorted(random.choices(range(len(lines) + 1), k=2))
            places = [(lines[:at].count("\n"), at - (lines[:at].rfind("\n") + 1)) for at in (first, last)]
            new = random.choice(("", "x", "y\n", "\n\nzz"))
            text.change([{"range": _range(*places), "text": new}])
            lines = (lines[:first] + new + lines[last:])[:200]
            text.change([{"text": lines}] if len(lines) == 200 else [])
            self.assertEqual(text.whole(), lines)
            self.assertTrue(Text(lines).is_same(text))


class Documents(unittest.TestCase):
    """What passes of two editors with one file."""

    def setUp(self):
        self.files = Files()

    def _passed(self, side, message):
        return [(side, each["method"][13:], each["params"]["textDocument"].get("version")) for side, each in self.files.hear(side, message).passed]

    def test_first_open_and_last_close(self):
        self.assertEqual(self._passed(1, _open("a", 3)), [(1, "didOpen", 3)])
        self.assertEqual(self._passed(2, _open("a", 1)), [])
        self.assertEqual(self._passed(1, _did("Close")), [])
        self.assertEqual(self._passed(2, _did("Close")), [(2, "didClose", None)])
        self.assertFalse(self.files.is_open(URI))

    def test_versions_rise_over_hands(self):
        self._passed(1, _open("a", 30))
        self._passed(2, _open("a", 1))
        self.assertEqual(self._passed(2, _change("b", 2)), [(2, "didChange", 31)])
        self.assertEqual(self._passed(1, _change("b", 31)), [])
        self.assertEqual(self._passed(1, _change("c", 32)), [(1, "didChange", 32)])
        said = {"params": {"uri": URI, "version": 31, "diagnostics": []}}
        self.assertEqual(self.files.diagnostics_for(2, said)["params"]["version"], 2)
        self.assertNotIn("version", self.files.diagnostics_for(1, said)["params"])

    def test_other_text_is_handed_on_whole(self):
        self._passed(1, _open("a", 5))
        self.assertEqual([side for side, _ in self.files.hear(2, _open("b", 1)).told], [2])
        self.assertEqual(self.files.hear(2, _change("bb", 2)).told, [])
        outcome = self.files.leave(1)
        self.assertEqual([(side, each["params"]["contentChanges"]) for side, each in outcome.passed], [(2, [{"text": "bb"}])])
        self.assertEqual(self._passed(2, _change("c", 3)), [(2, "didChange", 7)])

    def test_undone_change_joins_again(self):
        self._passed(1, _open("a", 1))
        self._passed(2, _open("a", 1))
        hover = request(1, "textDocument/hover", {"textDocument": {"uri": URI}})
        self._passed(1, _change("b", 2))
        self.assertEqual([each.get("method", "answer") for _, each in self.files.hear(2, hover).told], ["window/showMessage", "answer"])
        self._passed(1, _change("a", 3))
        self.assertEqual(len(self.files.hear(2, hover).passed), 1)

    def test_loaded_by_close_and_open(self):
        for closer in (1, 2):
            self.files = Files()
            self._passed(1, _open("a", 1))
            self._passed(2, _open("a", 1))
            self.assertEqual(self._passed(closer, _did("Close")), [])
            self.assertEqual(self._passed(closer, _open("b", 7)), [(closer, "didChange", 7)])
            hover = request(1, "textDocument/hover", {"textDocument": {"uri": URI}})
            self.assertEqual([len(self.files.hear(side, hover).passed) for side in (closer, 3 - closer)], [1, 0])
            self._passed(closer, _did("Close"))
            self._passed(3 - closer, _change("c", 8))
            self.assertEqual(self._passed(closer, _open("b", 9)), [])

    def test_opened_twice(self):
        self._passed(1, _open("a", 1))
        self.assertEqual(self._passed(1, _open("b", 9)), [(1, "didChange", 9)])

    def test_diagnostics_are_bounded(self):
        kept = Diagnosed()
        for number in range(40):
            kept.keep("file:///%d" % number, b"x" * (1 << 20))
        self.assertEqual((kept.last("file:///0"), len(kept.last("file:///39"))), (None, 1 << 20))


class Requests(unittest.TestCase):
    """Who is asked by the server."""

    def test_routes(self):
        asks, editors = Asks(), [Editor(side, Stage.READY) for side in (1, 2, 3)]
        editors[0].stage = Stage.JOINED
        self.assertEqual(asks.route(1, 5, "x", editors), 2)
        self.assertEqual(asks.answer(2, {"id": 5}), (1, {"id": 5}))
        editors[2].ask(1, "workspace/executeCommand", 1)
        editors[1].ask(1, "workspace/executeCommand", 2)
        self.assertEqual(asks.route(1, 6, "workspace/applyEdit", editors), 3)
        self.assertEqual([side for side, _ in asks.leave(3)], [1])
        self.assertIsNone(asks.route(1, 7, "x", [Editor(1)]))

    def test_copies_are_its_own(self):
        asks = Asks()
        asks.register(REGISTER, {"registrations": [{"id": "a"}, {"id": "a", "method": "m"}, 5]})
        copy = asks.replay()
        self.assertIsNone(asks.answer(1, {"id": copy["id"]}))
        asks.route(1, 5, "x", [Editor(1, Stage.READY)])
        self.assertIsNone(asks.answer(2, {"id": 5}))
        self.assertEqual(asks.answer(1, {"id": 5}), (1, {"id": 5}))
        self.assertIsNone(asks.answer(1, {"id": 5}))
        self.assertIsNone(asks.route(1, 6, "x", [Editor(1, Stage.DOWN)]))


if __name__ == "__main__":
    unittest.main()
