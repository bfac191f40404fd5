"""Tests of reading texts: the exact bytes of every form, every message, and that spelling a record undoes reading it."""

import pathlib
import random
import time
import unittest

from record import COMMANDS, MOST, PLACES, Record, request_words
from source import Line, read_source, record_of

SAMPLES = pathlib.Path(__file__).resolve().parent.parent / "samples"
CASES = pathlib.Path(__file__).resolve().parent / "cases"
BENCH = pathlib.Path(__file__).resolve().parent.parent / "crates/bench"


def laid(*parts):
    """128 bytes, zero but for the given parts, each a place and bytes. Apart from the code, to hold it to document 01."""
    record = bytearray(128)
    for at, data in parts:
        record[at : at + len(data)] = data
    assert len(record) == 128
    return bytes(record)


def key_of(line):
    """The bytes that the last word of a line stands for, read as a key."""
    (record,), faults = read_source(line)
    assert not faults, faults
    return record[12 : 12 + record[2]]


class Making(unittest.TestCase):
    def makes(self, text, *items):
        self.assertEqual(read_source(text), (list(items), []))

    def test_each_command(self):
        self.makes(b"begin 0", laid((0, b"\x01")))
        self.makes(b"read-only 1", laid((0, b"\x02\x01")))
        self.makes(b"as-of 2 5", laid((0, b"\x03\x02"), (11, b"\x05")))
        self.makes(b"get 3 ab", laid((0, b"\x04\x03\x02"), (12, b"ab")))
        self.makes(b"set 4 ab xyz", laid((0, b"\x05\x04\x02\x03"), (12, b"ab"), (76, b"xyz")))
        self.makes(b"delete 5 ab", laid((0, b"\x06\x05\x02"), (12, b"ab")))
        self.makes(b"scan 6 ab", laid((0, b"\x07\x06\x02"), (12, b"ab")))
        self.makes(b"commit 7", laid((0, b"\x08\x07")))
        self.makes(b"rollback 8", laid((0, b"\x09\x08")))
        self.makes(b"compact", laid((0, b"\x0a")))
        self.makes(b"status", laid((0, b"\x0b")))

    def test_largest_fields(self):
        self.makes(b"as-of 15 18446744073709551615", laid((0, b"\x03\x0f"), (4, b"\xff" * 8)))
        self.makes(b"as-of 015 " + b"0" * 5000 + b"7", laid((0, b"\x03\x0f"), (11, b"\x07")))
        full = laid((0, b"\x05\x0f\x40\x34"), (12, b"k" * 64), (76, b"v" * 52))
        self.makes(b"set 15 " + b"k" * 64 + b" " + b"v" * 52, full)

    def test_the_empty_prefix(self):
        for line in b"scan 0", b'scan 0 ""', b"scan 0 0x":
            self.makes(line, laid((0, b"\x07")))

    def test_records_by_their_bytes(self):
        self.makes(b"record 0e", laid((0, b"\x0e")))
        self.makes(b"record 0x01 00ff\t0A", laid((0, b"\x01\x00\xff\x0a")))
        self.makes(b"record " + b"ab" * 128, b"\xab" * 128)
        self.makes(b"raw 0100", b"\x01\x00")
        self.makes(b"raw " + b"ab" * 128 + b"\nstatus", b"\xab" * 128, laid((0, b"\x0b")))

    def test_comments_and_blank_lines_stay(self):
        text = b"# a\n\n \t\nbegin 0 # b\r\n  status #\n"
        self.makes(text, "# a", "", "", Line(laid((0, b"\x01")), "# b"), Line(laid((0, b"\x0b")), "#"))
        self.makes(b"# a\r\n  # b \t\n", "# a", "  # b")
        self.makes(b"# a\n# no newline", "# a", "# no newline")
        self.makes(b"\n", "")
        self.makes(b"")

    def test_words(self):
        self.assertEqual(key_of(b"get 0 a#b"), b"a#b")
        self.assertEqual(key_of(b"\tget\t 0  a,b;'c'"), b"a,b;'c'")
        self.assertEqual(key_of("get 0 blåne".encode()), "blåne".encode())
        self.assertEqual(key_of(b'get 0 ""'), b"")
        self.assertEqual(key_of(b'get 0 "a b#\tc"'), b"a b#\tc")
        self.assertEqual(key_of(rb'get 0 "\n\t\\\"\x00\xFf"'), b'\n\t\\"\x00\xff')
        self.assertEqual(key_of('get 0 "å\\xc3\\xa5"'.encode()), "åå".encode())
        self.assertEqual(key_of(b"get 0 0x0061fF"), b"\x00a\xff")
        self.assertEqual(key_of(b'get 0 "0x61"'), b"0x61")
        self.assertEqual(key_of(b"get 0 0X61"), b"0X61")

    def test_stored_tapes_are_their_texts(self):
        """The sample, and the tape that the bench program's stored run has."""
        stored = ((SAMPLES / "bulletins.txt", SAMPLES / "bulletins.tape"), (CASES / "bench.txt", BENCH / "stdin"))
        for text, tape in stored:
            items, faults = read_source(text.read_bytes())
            self.assertEqual(faults, [])
            self.assertEqual(b"".join(map(record_of, items)), tape.read_bytes())


KNOWN = "there are begin read-only as-of get set delete scan commit rollback compact status record raw"


class Faults(unittest.TestCase):
    MESSAGES = (
        (b"get 0 \xff", "the line is not UTF-8"),
        (b"fetch 0 a", f"unknown command fetch: {KNOWN}"),
        (b'"begin" 0', f'unknown command "begin": {KNOWN}'),
        (b"\x1b[2J 0", f"unknown command \\x1b[2J: {KNOWN}"),
        (b"x" * 3000000, f"unknown command {'x' * 60}.. (3000000 signs): {KNOWN}"),
        (b"begin \x1b", "slot \\x1b: a number from 0 to 15 is wanted"),
        (b"get 0 0x" + b"g" * 99, f"0x{'g' * 58}.. (101 signs) is not hex, two digits a byte"),
        (b'get 0 "\\\x07"', 'unknown escape \\\\x07: there are \\n \\t \\\\ \\" \\xhh'),
        (b"begin", "it is written: begin SLOT"),
        (b"commit 0 1", "it is written: commit SLOT"),
        (b"as-of 2", "it is written: as-of SLOT VERSION"),
        (b"get 0", "it is written: get SLOT KEY"),
        (b"set 0 late bulletin here", "it is written: set SLOT KEY VALUE"),
        (b"scan", "it is written: scan SLOT PREFIX"),
        (b"scan 0 a b", "it is written: scan SLOT PREFIX"),
        (b"compact 0", "it is written: compact"),
        (b"begin 16", "slot 16: a number from 0 to 15 is wanted"),
        (b"begin -1", "slot -1: a number from 0 to 15 is wanted"),
        (b'begin "1"', 'slot "1": a number from 0 to 15 is wanted'),
        ("begin ٣".encode(), "slot ٣: a number from 0 to 15 is wanted"),
        (b"as-of 0 18446744073709551616", "version 18446744073709551616: a number from 0 to 18446744073709551615 is wanted"),
        (b"as-of 0 x", "version x: a number from 0 to 18446744073709551615 is wanted"),
        (b"get 0 " + b"k" * 65, "key of 65 bytes: 64 are the most"),
        (b"get 0 0x" + b"00" * 65, "key of 65 bytes: 64 are the most"),
        (b"scan 0 " + b"k" * 65, "prefix of 65 bytes: 64 are the most"),
        (b"set 0 k " + b"v" * 53, "value of 53 bytes: 52 are the most"),
        (b"get 0 0x123", "0x123 is not hex, two digits a byte"),
        (b"get 0 0xgg", "0xgg is not hex, two digits a byte"),
        (b'record "01"', '"01" is not hex, two digits a byte'),
        (b"record", "record of 0 bytes: 1 to 128 are wanted"),
        (b"record " + b"00" * 129, "record of 129 bytes: 1 to 128 are wanted"),
        (b"raw 0x", "raw of 0 bytes: 1 to 128 are wanted"),
        (b'get 0 a"b"', '" in a bare word: write the word in quotes'),
        (b"get 0 a\\n", "\\ in a bare word: write the word in quotes"),
        (b'get 0 "a', "no closing quote"),
        (b'get 0 "a\\"', "no closing quote"),
        (b'get 0 "a"b', "no blank after a closing quote"),
        (b'get 0 "\\q"', 'unknown escape \\q: there are \\n \\t \\\\ \\" \\xhh'),
        (b'get 0 "\\x4"', 'unknown escape \\x: there are \\n \\t \\\\ \\" \\xhh'),
    )

    def test_each_message(self):
        for line, message in self.MESSAGES:
            with self.subTest(line=line):
                self.assertEqual(read_source(b"# first\n" + line), (["# first"], [(2, message)]))

    def test_nothing_follows_a_record_cut_short(self):
        items, faults = read_source(b"raw 01\n# a comment may\nstatus\nbegin 0\n")
        self.assertEqual(items, [b"\x01", "# a comment may"])
        self.assertEqual(faults, [(3, "nothing can follow a record cut short"), (4, "nothing can follow a record cut short")])

    def test_what_is_no_text_is_told_once(self):
        marked = "the text begins with a byte order mark (ef bb bf): take it out"
        tape = "this is a tape and no text: it is run by ./run TAPE, and shown by --words TAPE"
        self.assertEqual(read_source(b"\xef\xbb\xbfbegin 0\nx\n"), ([], [(1, marked)]))
        self.assertEqual(read_source((SAMPLES / "bulletins.tape").read_bytes()), ([], [(1, tape)]))
        self.assertEqual(read_source(b'get 0 "\0"\n')[1], [])

    def test_a_long_string_takes_no_time_to_speak_of(self):
        """Three million signs: in time that grew with the square these were minutes."""
        start = time.process_time()
        self.assertEqual(read_source(b'get 0 "' + b"a\\n" * 1000000 + b'"')[1], [(1, "key of 2000000 bytes: 64 are the most")])
        self.assertLess(time.process_time() - start, 20)

    def test_all_faults_are_told(self):
        self.assertEqual([line for line, _ in read_source(b"begin\nbegin 0\nget\n\nset\n")[1]], [1, 3, 5])


class RoundTrip(unittest.TestCase):
    """The words of any record, read as a text, are that record again."""

    def stays(self, record):
        words = request_words(record)
        self.assertEqual(read_source(words.encode()), ([record], []), words)
        return words.split()[0]

    def test_commands(self):
        chance = random.Random(1)
        letters = (b"a", b"0", b"x", b"#", b'"', b"\\", b" ", b"\t", b"\n", b"\x00", b"\x7f", b"\xff", "å".encode(), "\u202e".encode())
        for _ in range(3000):
            word, (code, uses) = chance.choice(sorted(COMMANDS.items()))
            fields = {}
            for field in uses:
                if field in ("slot", "version"):
                    fields[PLACES[field]] = chance.choice((0, 1, MOST[field], chance.randint(0, MOST[field])))
                else:
                    text = b"".join(chance.choice(letters) for _ in range(chance.randint(0, 40)))
                    fields[PLACES[field]] = text[: chance.choice((5, MOST[field]))]
            self.assertEqual(self.stays(Record(code, **fields).packed()), word)

    def test_any_bytes(self):
        chance = random.Random(2)
        kinds = set()
        for _ in range(3000):
            good = laid((0, b"\x05\x01\x02\x02"), (12, b"ab"), (76, b"xy"))
            record = bytearray(chance.choice((good, bytes(128), bytes(chance.choices(range(256), k=128)))))
            for _ in range(chance.randint(0, 2)):
                record[chance.choice((0, 1, 2, 3, 4, 11, 12, 14, 75, 76, 78, 127))] = chance.choice((0, 1, 7, 11, 12, 16, 53, 65, 255))
            kinds.add(self.stays(bytes(record[: chance.choice((1, 127, 128, 128, 128))])))
        self.assertLessEqual({"record", "raw", "set"}, kinds)
