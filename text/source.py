"""Reads a text, a line a command, and makes the records of a tape. README.md, 'A tape in words', has the language.

A text with a fault makes no tape. Every fault is told with its line, so that one try finds them all.
"""

import re
from typing import List, NamedTuple, Optional, Tuple, Union

from record import COMMANDS, MOST, PLACES, RECORD, Record

# What a text has in turn: a record, with the comment behind it where there is one, or a comment or blank line, which is only shown again.
Item = Union[bytes, "Line", str]

NUMBER = re.compile("0*([0-9]{1,20})")
HEX = re.compile("(?:0x)?((?:[0-9A-Fa-f]{2})*)")
ESCAPE = re.compile(r'\\(?:x([0-9A-Fa-f]{2})|([nt"\\]))')
ESCAPED = {"n": b"\n", "t": b"\t", '"': b'"', "\\": b"\\"}
BLANKS = " \t"
PLAIN = re.compile(r'[^"\\]+')
BOM = b"\xef\xbb\xbf"

# The first byte of a record that a command makes.
TAPE_STARTS = tuple(bytes([code]) for code, _ in COMMANDS.values() if bytes([code]) not in b"\t\n\r")

# A fault quotes no more of a word than this.
QUOTED_MOST = 60


class Fault(Exception):
    """What is wrong with one line."""


class Line(NamedTuple):
    """A record with the comment behind its command."""

    record: bytes
    comment: str


class Word(NamedTuple):
    """A word as it is written. Quotes settle its bytes; those of a bare word (None) depend on where it stands."""

    text: str
    quoted: Optional[bytes] = None


def read_source(data: bytes) -> Tuple[List[Item], List[Tuple[int, str]]]:
    """The items of a text, and its faults as line numbers, from 1, with messages."""
    items: List[Item] = []
    faults = []
    ended = False
    whole = fault_of_all(data)
    if whole:
        return [], [(1, whole)]
    lines = data.split(b"\n")
    if not lines[-1]:
        lines.pop()
    for number, line in enumerate(lines, 1):
        try:
            item = read_line(line)
            if not isinstance(item, str):
                if ended:
                    raise Fault("nothing can follow a record cut short")
                ended = len(record_of(item)) < RECORD
            items.append(item)
        except Fault as fault:
            faults.append((number, str(fault)))
    return items, faults


def record_of(item: Item) -> bytes:
    """The bytes that an item adds to the tape."""
    if isinstance(item, str):
        return b""
    return item if isinstance(item, bytes) else item.record


def fault_of_all(data: bytes) -> str:
    """Why these bytes are no text at all, which a fault for each line would hide."""
    if data.startswith(BOM):
        return "the text begins with a byte order mark (ef bb bf): take it out"
    if data[:1] in TAPE_STARTS and b"\0" in data:
        return "this is a tape and no text: it is run by ./run TAPE, and shown by --words TAPE"
    return ""


def shown(text: str) -> str:
    """A word in a fault: what a terminal would act on, and more than one reads, is not shown."""
    cut = text[:QUOTED_MOST]
    plain = "".join(sign if sign.isprintable() else sign.encode("unicode_escape").decode("ascii") for sign in cut)
    return plain if len(text) <= QUOTED_MOST else f"{plain}.. ({len(text)} signs)"


def read_line(line: bytes) -> Item:
    try:
        text = line.decode("utf-8").rstrip(BLANKS + "\r")
    except UnicodeDecodeError:
        raise Fault("the line is not UTF-8") from None
    words, rest = split(text)
    if not words:
        return text
    record = command(words[0], words[1:])
    return Line(record, rest) if rest else record


def split(text: str) -> Tuple[List[Word], str]:
    """The words of a line up to its comment, and that."""
    words: List[Word] = []
    at = 0
    while True:
        while at < len(text) and text[at] in BLANKS:
            at += 1
        if at == len(text) or text[at] == "#":
            return words, text[at:]
        word = quoted(text, at) if text[at] == '"' else bare(text, at)
        words.append(word)
        at += len(word.text)


def bare(text: str, at: int) -> Word:
    end = at
    while end < len(text) and text[end] not in BLANKS:
        if text[end] in '"\\':
            raise Fault(f"{text[end]} in a bare word: write the word in quotes")
        end += 1
    return Word(text[at:end])


def quoted(text: str, start: int) -> Word:
    """The word whose opening quote is at `start`. An escape is one byte, any other sign its UTF-8."""
    parts = []
    at = start + 1
    while at < len(text) and text[at] != '"':
        plain = PLAIN.match(text, at)
        if plain:
            parts.append(plain[0].encode("utf-8"))
            at = plain.end()
            continue
        escape = ESCAPE.match(text, at)
        if not escape:
            raise Fault(f'unknown escape {shown(text[at : at + 2])}: there are \\n \\t \\\\ \\" \\xhh')
        parts.append(bytes.fromhex(escape[1]) if escape[1] else ESCAPED[escape[2]])
        at = escape.end()
    if at == len(text):
        raise Fault("no closing quote")
    if at + 1 < len(text) and text[at + 1] not in BLANKS:
        raise Fault("no blank after a closing quote")
    return Word(text[start : at + 1], b"".join(parts))


def command(name: Word, words: List[Word]) -> bytes:
    if name.text in ("record", "raw"):
        return by_bytes(name.text, words)
    if name.text not in COMMANDS:
        raise Fault(f"unknown command {shown(name.text)}: there are {' '.join(COMMANDS)} record raw")
    code, uses = COMMANDS[name.text]
    if name.text == "scan" and len(words) == 1:
        words = words + [Word('""', b"")]
    if len(words) != len(uses):
        raise Fault(f"it is written: {' '.join([name.text] + [field.upper() for field in uses])}")
    return Record(code, **{PLACES[field]: value_of(field, word) for field, word in zip(uses, words)}).packed()


def value_of(field: str, word: Word) -> Union[int, bytes]:
    if field in ("slot", "version"):
        found = NUMBER.fullmatch(word.text)
        if not found or int(found[1]) > MOST[field]:
            raise Fault(f"{field} {shown(word.text)}: a number from 0 to {MOST[field]} is wanted")
        return int(found[1])
    data = word.quoted
    if data is None:
        data = hex_of(word) if word.text.startswith("0x") else word.text.encode("utf-8")
    if len(data) > MOST[field]:
        raise Fault(f"{field} of {len(data)} bytes: {MOST[field]} are the most")
    return data


def by_bytes(name: str, words: List[Word]) -> bytes:
    """A record that no command makes, from its bytes: filled up with zeros, or (`raw`) these alone."""
    data = b"".join(map(hex_of, words))
    if not 1 <= len(data) <= RECORD:
        raise Fault(f"{name} of {len(data)} bytes: 1 to {RECORD} are wanted")
    return data.ljust(RECORD, b"\0") if name == "record" else data


def hex_of(word: Word) -> bytes:
    found = HEX.fullmatch(word.text)
    if not found:
        raise Fault(f"{shown(word.text)} is not hex, two digits a byte")
    return bytes.fromhex(found[1])
