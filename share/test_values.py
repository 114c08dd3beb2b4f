"""Tests of values, and of the messages that they are."""
import json
import unittest

from messages import Code, Head, Kind, Unfit, head_of, kind_of, outline, tidy
from values import DEPTH_LIMIT, NotJson, TooDeep, check_depth, read, read_carried, restore, write


def _floats(value):
    if isinstance(value, (list, dict)):
        return any(map(_floats, value.values() if isinstance(value, dict) else value))
    return isinstance(value, float) or (isinstance(value, int) and not -2 ** 63 <= value < 2 ** 63)


class Values(unittest.TestCase):
    """A text through the proxy and back."""

    def test_there_and_back(self):
        for text in ("1.50", "[1e3,-0.0,1E+2]", "9223372036854775808", "-9223372036854775809", "9223372036854775807", "1" * 5000,
                     '"\ue0f7"', '"\ue0f71.5"', '["\ue0f7\ue0f7",2.5]', '{"\ue0f71":"\\\\","b":0.5}', '"a\\"\ue0f71"', '"\\\\\\"\ue0f75"', '"x\ue0f7"'):
            carried = write(read(text.encode("utf-8")))
            self.assertFalse(_floats(read_carried(carried)), text)
            self.assertEqual(restore(carried).decode("utf-8"), text)

    def test_escaped_mark(self):
        self.assertEqual(json.loads(restore(write(read(b'["\\ue0F71",1.5]')))), ["\ue0f71", 1.5])

    def test_no_json(self):
        for body in (b"", b"{", b"NaN", b"[Infinity]", b"\xff", b'"\n"', b"1 2", b"01"):
            with self.assertRaises(NotJson, msg=body):
                read(body)
        with self.assertRaises(TooDeep):
            read(b"[" * 100000)

    def test_half_pairs(self):
        self.assertEqual(write(read(b'"\\ud800 \\ud83d\\ude00 \\udc00"')).decode("utf-8"), '"\ufffd \U0001f600 \ufffd"')

    def test_depth(self):
        for depth, brackets in ((DEPTH_LIMIT, "[]"), (DEPTH_LIMIT + 1, "[]")):
            body = (brackets[0] * depth + brackets[1] * depth).encode("ascii")
            if depth > DEPTH_LIMIT:
                self.assertRaises(TooDeep, check_depth, read(body), body)
            else:
                check_depth(read(body), body)
        wide = b"[" + b"[]," * 300 + b"{}]"
        check_depth(read(wide), wide)


class Messages(unittest.TestCase):
    """What a value is as a message."""

    def test_tidy(self):
        for value, wanted in (
                ({"method": "m"}, {"jsonrpc": "2.0", "method": "m"}),
                ({"jsonrpc": "1", "method": "m", "id": 1, "params": None, "result": 5}, {"jsonrpc": "2.0", "method": "m", "id": 1, "params": None}),
                ({"id": 1, "result": None, "more": 2}, {"jsonrpc": "2.0", "id": 1, "result": None}),
                ({"id": "12", "result": 1, "error": None}, {"jsonrpc": "2.0", "id": 12, "result": 1}),
                ({"id": 1, "result": 1, "error": {"code": 3, "message": "m", "x": 1}}, {"jsonrpc": "2.0", "id": 1, "error": {"code": 3, "message": "m"}})):
            self.assertEqual(tidy(value), wanted)
        for value in (5, [], None, {}, {"result": 1}, {"method": 1}, {"method": "m", "id": True}, {"id": [], "result": 1}):
            self.assertRaises(Unfit, tidy, value)

    def test_errors_are_made_whole(self):
        for value in ({"id": 1}, {"id": 1, "error": 5}, {"id": 1, "error": {"message": "m"}}, {"id": 1, "error": {"code": True, "message": 1}}):
            error = tidy(value)["error"]
            self.assertEqual((error["code"], type(error["message"])), (Code.INTERNAL_ERROR, str))

    def test_heads(self):
        for body, head in ((b'{"id":7,"jsonrpc":"2.0","method":"a\\"b","params":{}}', Head(Kind.REQUEST, 7, 'a"b')),
                           (b'{"id":null,"jsonrpc":"2.0","method":"m"}', Head(Kind.REQUEST, None, "m")),
                           (b'{"jsonrpc":"2.0","method":"m","params":{"id":1}}', Head(Kind.NOTIFICATION, None, "m")),
                           (b'{"id":"x\\"","jsonrpc":"2.0","result":{"method":"m"}}', Head(Kind.ANSWER, 'x"')),
                           (b'{"error":{"code":1,"message":"m"},"id":"a","jsonrpc":"2.0"}', Head(Kind.ANSWER, "a", is_error=True))):
            self.assertEqual(head_of(body), head)

    def test_outline(self):
        deep = b"[" * 5000 + b'{"id":9}' + b"]" * 5000
        self.assertEqual(kind_of(outline(b'{"params":%b, "id" : 5,"method":"id"}' % deep)), Kind.REQUEST)
        self.assertEqual(outline(b'{"result":%b,"id":5}' % deep)["id"], 5)
        self.assertEqual(outline(b'{"result":["id",%b],"id":"\\"id"}' % deep)["id"], '"id')
        self.assertRaises(Unfit, outline, deep)


if __name__ == "__main__":
    unittest.main()
