"""Tests of showing answers: the exact words for answer bytes that are written here, and that answers which do not fit are refused."""

import unittest

from record import spelt
from source import Line
from tape import Misfit, chunks, transcript
from test_source import laid

PAIR_ab_xy = laid((1, b"\x07\x02\x02"), (12, b"ab"), (76, b"xy"))
NOTHING = laid((1, b"\x07"))
EMPTY_PAIR = NOTHING


def end(count):
    return laid((1, b"\x07"), (11, bytes([count])))


def shown(requests, *answers):
    return list(transcript(requests, b"".join(answers)))


class Spelling(unittest.TestCase):
    def test_bytes(self):
        for data, words in (
            (b"news/01", "news/01"),
            (b"A_z.0:9@+-", "A_z.0:9@+-"),
            (b"", '""'),
            (b"late bulletin", '"late bulletin"'),
            (b"0x61", '"0x61"'),
            (b"#a", '"#a"'),
            (b"a=b", '"a=b"'),
            (b'\\"\n\t\r\x00\x7f', '"\\\\\\"\\n\\t\\x0d\\x00\\x7f"'),
            ("blåne".encode(), '"blåne"'),
            ("a\u202eb\u00a0".encode(), '"a\\xe2\\x80\\xaeb\\xc2\\xa0"'),
            (b"\x00a\xff", "0x0061ff"),
            (b"\xc3", "0xc3"),
        ):
            with self.subTest(data=data):
                self.assertEqual(spelt(data), words)


class Comments(unittest.TestCase):
    def test_they_stay_behind_the_last_answer(self):
        scan = Line(laid((0, b"\x07")), "# all of it")
        lines = shown(["# a", scan, laid((0, b"\x0b"))], PAIR_ab_xy, end(1), laid((1, b"\x0b"), (11, b"\x02")))
        first, last = 'scan 0 "" -> ab = xy', "          -> Done, 1 pair  # all of it"
        self.assertEqual(lines, ["# a", first, last, "status    -> Done, 2 live keys"])


class Showing(unittest.TestCase):
    def shows(self, request, answer, words):
        self.assertEqual(shown([request], answer), [words])

    def test_begins(self):
        self.shows(laid((0, b"\x01\x03")), laid((1, b"\x01"), (11, b"\x01")), "begin 3 -> Done, slot 3, version 1")
        self.shows(laid((0, b"\x02")), laid((1, b"\x02"), (10, b"\x01\x00")), "read-only 0 -> Done, slot 0, version 256")
        top = laid((0, b"\x03\x0f"), (4, b"\xff" * 8)), laid((1, b"\x03"), (4, b"\xff" * 8))
        self.shows(*top, "as-of 15 18446744073709551615 -> Done, slot 15, version 18446744073709551615")

    def test_values(self):
        get = laid((0, b"\x04\x00\x02"), (12, b"ab"))
        for value, words in (b"late bulletin", '"late bulletin"'), (b"late", "late"), (b"", '""'), (b"\xff" * 52, "0x" + "ff" * 52):
            self.shows(get, laid((1, b"\x04\x00" + bytes([len(value)])), (76, value)), f"get 0 ab -> Done, value {words}")

    def test_writes_and_ends(self):
        self.shows(laid((0, b"\x05\x01\x02\x02"), (12, b"ab"), (76, b"xy")), laid((1, b"\x05")), "set 1 ab xy -> Done")
        self.shows(laid((0, b"\x06\x01\x02"), (12, b"ab")), laid((1, b"\x06")), "delete 1 ab -> Done")
        self.shows(laid((0, b"\x08\x01")), laid((1, b"\x08")), "commit 1 -> Done")
        self.shows(laid((0, b"\x09\x01")), laid((1, b"\x09")), "rollback 1 -> Done")

    def test_counts(self):
        self.shows(laid((0, b"\x0a")), laid((1, b"\x0a"), (10, b"\x40\x00")), "compact -> Done, used length 16384")
        self.shows(laid((0, b"\x0b")), laid((1, b"\x0b")), "status -> Done, 0 live keys")
        self.shows(laid((0, b"\x0b")), laid((1, b"\x0b"), (11, b"\x01")), "status -> Done, 1 live key")

    def test_each_refusal(self):
        names = "Absent ReadOnly NotOpen KeyTooLong ValueTooLong Conflict LogFull TableFull TooManyOpen NoSuchVersion VersionsSpent"
        for number, name in enumerate((names + " BadStore BadRequest").split(), 1):
            self.shows(laid((0, b"\x08")), laid((0, bytes([number, 8]))), f"commit 0 -> {number} {name}")

    def test_bad_records(self):
        self.shows(laid((0, b"\x63")), laid((0, b"\x0d\x63")), "record 63 -> 13 BadRequest")
        self.shows(bytes(128), laid((0, b"\x0d")), "record 00 -> 13 BadRequest")
        self.shows(b"\x07\x00", laid((0, b"\x0d")), "raw 0700 -> 13 BadRequest")
        self.shows(laid((0, b"\x07"), (127, b"\x01")), laid((0, b"\x0d\x07")), "record 07" + "00" * 126 + "01 -> 13 BadRequest")

    def test_layout(self):
        items = ["# first", laid((0, b"\x01")), "", laid((0, b"\x07\x00\x01"), (12, b"a")), laid((0, b"\x0b"))]
        answers = laid((1, b"\x01"), (11, b"\x01")), PAIR_ab_xy, end(1), laid((1, b"\x0b"), (11, b"\x02"))
        lines = ["# first", "begin 0  -> Done, slot 0, version 1", "", "scan 0 a -> ab = xy"]
        self.assertEqual(shown(items, *answers), lines + ["         -> Done, 1 pair", "status   -> Done, 2 live keys"])
        self.assertEqual(shown([]), [])

    def test_long_requests_do_not_widen_the_rest(self):
        first, second = shown([laid((0, b"\x63"), (127, b"\x01")), laid((0, b"\x0b"))], laid((0, b"\x0d\x63")), laid((1, b"\x0b")))
        self.assertEqual(first, "record 63" + "00" * 126 + "01 -> 13 BadRequest")
        self.assertEqual(second, "status" + " " * 34 + " -> Done, 0 live keys")


class Scans(unittest.TestCase):
    """A pair of an empty key and an empty value has the bytes of the end of an empty scan; what follows tells."""

    SCAN = laid((0, b"\x07"))
    STATUS = laid((0, b"\x0b"))
    COUNTED = laid((1, b"\x0b"), (11, b"\x01"))

    def scans(self, count, *answers):
        """The words of so many scans with a status after them, requests and padding left out."""
        lines = shown([self.SCAN] * count + [self.STATUS], *answers, self.COUNTED)
        self.assertEqual(lines.pop(), 'status    -> Done, 1 live key')
        return [line.split("-> ")[1] for line in lines]

    def test_ends(self):
        self.assertEqual(self.scans(1, NOTHING), ["Done, 0 pairs"])
        self.assertEqual(self.scans(1, PAIR_ab_xy, end(1)), ["ab = xy", "Done, 1 pair"])
        self.assertEqual(self.scans(1, PAIR_ab_xy, PAIR_ab_xy, end(2)), ["ab = xy", "ab = xy", "Done, 2 pairs"])
        self.assertEqual(self.scans(1, laid((0, b"\x0c\x07"))), ["12 BadStore"])
        self.assertEqual(self.scans(1, PAIR_ab_xy, laid((0, b"\x0c\x07"))), ["ab = xy", "12 BadStore"])

    def test_empty_pairs(self):
        self.assertEqual(self.scans(1, EMPTY_PAIR, end(1)), ['"" = ""', "Done, 1 pair"])
        self.assertEqual(self.scans(1, EMPTY_PAIR, PAIR_ab_xy, end(2)), ['"" = ""', "ab = xy", "Done, 2 pairs"])
        self.assertEqual(self.scans(2, NOTHING, NOTHING), ["Done, 0 pairs", "Done, 0 pairs"])
        self.assertEqual(self.scans(2, NOTHING, PAIR_ab_xy, end(1)), ["Done, 0 pairs", "ab = xy", "Done, 1 pair"])
        self.assertEqual(self.scans(2, NOTHING, EMPTY_PAIR, end(1)), ["Done, 0 pairs", '"" = ""', "Done, 1 pair"])
        self.assertEqual(self.scans(2, EMPTY_PAIR, end(1), NOTHING), ['"" = ""', "Done, 1 pair", "Done, 0 pairs"])

    def test_half_empty_pairs(self):
        self.assertEqual(self.scans(1, laid((1, b"\x07\x00\x01"), (76, b"x")), end(1)), ['"" = x', "Done, 1 pair"])
        self.assertEqual(self.scans(1, laid((1, b"\x07\x01"), (12, b"\xff")), end(1)), ['0xff = ""', "Done, 1 pair"])


class Misfits(unittest.TestCase):
    def refused(self, message, request, *answers):
        with self.assertRaises(Misfit) as caught:
            shown(request, *answers)
        self.assertEqual(str(caught.exception), message)

    def test_too_few_and_too_many(self):
        commit = laid((0, b"\x08"))
        self.refused("no answer to: commit 0", [commit])
        self.refused("no answer to: scan 0 \"\"", [laid((0, b"\x07"))], PAIR_ab_xy)
        done = laid((1, b"\x08"))
        self.refused(f"answer 2 has no request: {done.hex()}", [commit], done, done)
        self.refused("answer 2 has no request: 00", [commit], done, b"\x00")

    def test_answers_that_do_not_fit(self):
        for name, request, answer in (
            ("commit 0", b"\x08", laid((1, b"\x09"))),  # another command's
            ("commit 0", b"\x08", laid((0, b"\x0e\x08"))),  # no such number
            ("commit 0", b"\x08", laid((1, b"\x08"), (11, b"\x01"))),  # a count where none belongs
            ("commit 0", b"\x08", laid((0, b"\x06\x08"), (127, b"\x01"))),  # a stray byte
            ("commit 0", b"\x08", laid((1, b"\x08\x41"))),  # a length over the most
            ("commit 0", b"\x08", laid((1, b"\x08"))[:127]),  # cut short
            ("begin 0", b"\x01", laid((1, b"\x01\x01"), (12, b"a"))),  # a key where none belongs
            ("get 0 \"\"", b"\x04", laid((0, b"\x01\x04\x00\x01"), (76, b"x"))),  # a refusal with a value
            ("scan 0 \"\"", b"\x07", end(1)),  # a wrong count
            ("scan 0 \"\"", b"\x07", laid((1, b"\x07\x01"), (11, b"\x01"), (12, b"a"))),  # a pair with a count
            ("scan 0 \"\"", b"\x07", b"\x00\x07\x01"),  # a pair cut short
            ("record 63", b"\x63", laid((1, b"\x63"))),  # Done to a bad record
        ):
            with self.subTest(request=name, answer=answer):
                self.refused(f"answer 1 does not fit: {name}: {answer.hex()}", [laid((0, request))], answer)

    def test_a_short_record_has_no_command(self):
        self.refused(f"answer 1 does not fit: raw 08: {laid((0, bytes([13, 8]))).hex()}", [b"\x08"], laid((0, b"\x0d\x08")))


class Chunks(unittest.TestCase):
    def test_the_last_may_be_short(self):
        self.assertEqual(chunks(b""), [])
        self.assertEqual(chunks(b"a" * 128), [b"a" * 128])
        self.assertEqual(chunks(b"a" * 129), [b"a" * 128, b"a"])
