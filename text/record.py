"""One record of a tape in document 01's layout, and how it is spelt in words.

Reading a text and showing a run both rest on this file, so that layout and spelling are said once.
"""

import re
from typing import NamedTuple, Optional

RECORD = 128
KEY_AT, VALUE_AT = 12, 76
KEY_MOST, VALUE_MOST = 64, 52

# The names of the numbers, 0 to 13.
NUMBERS = (
    "Done", "Absent", "ReadOnly", "NotOpen", "KeyTooLong", "ValueTooLong", "Conflict", "LogFull", "TableFull", "TooManyOpen",
    "NoSuchVersion", "VersionsSpent", "BadStore", "BadRequest",
)

# Each command's word, its number and the fields that it uses, in the order in which a text has them.
COMMANDS = {
    "begin": (1, ("slot",)),
    "read-only": (2, ("slot",)),
    "as-of": (3, ("slot", "version")),
    "get": (4, ("slot", "key")),
    "set": (5, ("slot", "key", "value")),
    "delete": (6, ("slot", "key")),
    "scan": (7, ("slot", "prefix")),
    "commit": (8, ("slot",)),
    "rollback": (9, ("slot",)),
    "compact": (10, ()),
    "status": (11, ()),
}
WORDS = {number: (word, uses) for word, (number, uses) in COMMANDS.items()}

# Where a request has each field, and the most that it may be: the highest number or the longest text.
PLACES = {"slot": "second", "version": "count", "key": "key", "prefix": "key", "value": "value"}
MOST = {"slot": 15, "version": 2**64 - 1, "key": KEY_MOST, "prefix": KEY_MOST, "value": VALUE_MOST}

BARE = re.compile(r"[A-Za-z0-9_./:@+-]+")
NAMED = {"\n": "\\n", "\t": "\\t", "\\": "\\\\", '"': '\\"'}


class Record(NamedTuple):
    """A record's fields: `first` and `second` are a request's command and slot, an answer's number and command.

    `count` is the version, count or length in bytes 4 to 11.
    """

    first: int
    second: int = 0
    count: int = 0
    key: bytes = b""
    value: bytes = b""

    def packed(self) -> bytes:
        head = bytes([self.first, self.second, len(self.key), len(self.value)])
        return head + self.count.to_bytes(8, "big") + self.key.ljust(KEY_MOST, b"\0") + self.value.ljust(VALUE_MOST, b"\0")


def unpacked(record: bytes) -> Optional[Record]:
    """The fields of a record, or None where they are not all that its bytes hold: words must not hide a stray byte."""
    if len(record) != RECORD:
        return None
    key = record[KEY_AT : KEY_AT + record[2]]
    value = record[VALUE_AT : VALUE_AT + record[3]]
    fields = Record(record[0], record[1], int.from_bytes(record[4:KEY_AT], "big"), key, value)
    return fields if fields.packed() == record else None


def spelt(data: bytes) -> str:
    """Bytes as a text may have them: a bare word, else quoted text, else (not UTF-8) hex."""
    try:
        text = data.decode("utf-8")
    except UnicodeDecodeError:
        return "0x" + data.hex()
    if BARE.fullmatch(text) and not text.startswith("0x"):
        return text
    return '"' + "".join(map(_escaped, text)) + '"'


def _escaped(sign: str) -> str:
    """A sign that would not show, or would not show as what it is, as its bytes."""
    if sign in NAMED:
        return NAMED[sign]
    if sign.isprintable():
        return sign
    return "".join(f"\\x{byte:02x}" for byte in sign.encode("utf-8"))


def request_words(record: bytes) -> str:
    """The text line that makes these bytes: a command where one does, else the bytes themselves."""
    if len(record) < RECORD:
        return "raw " + record.hex()
    fields = unpacked(record)
    if fields and fields.first in WORDS and fields.second <= MOST["slot"]:
        word, uses = WORDS[fields.first]
        have = {PLACES[field]: getattr(fields, PLACES[field]) for field in uses}
        if Record(fields.first, **have) == fields:
            return " ".join([word] + [spelt(field) if isinstance(field, bytes) else str(field) for field in have.values()])
    return "record " + (record.rstrip(b"\0") or b"\0").hex()
