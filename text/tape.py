"""Tapes in words: makes the tape of a text, has ./run run it, and shows each request with its answers.

./run calls this as `tape.py make|text|words FILE`; FILE may be -, standard input.
"""

import os
import pathlib
import signal
import subprocess
import sys
from typing import Iterator, List

from record import NUMBERS, RECORD, Record, request_words, spelt, unpacked
from source import Item, Line, read_source, record_of

RUN = pathlib.Path(__file__).resolve().parent.parent / "run"
SCAN = 7
WIDEST = 40


class Misfit(Exception):
    """The answers are not in document 01's layout, or not those of this tape."""


def chunks(data: bytes) -> List[bytes]:
    return [data[at : at + RECORD] for at in range(0, len(data), RECORD)]


def transcript(items: List[Item], data: bytes) -> Iterator[str]:
    """A line an answer, a request before its first; what else a text has stays as it is.

    A comment behind a command stays behind its last answer.
    """
    width = min(WIDEST, max((len(request_words(record_of(item))) for item in items if not isinstance(item, str)), default=0))
    answers = chunks(data)
    at = 0
    for line in items:
        if isinstance(line, str):
            yield line
            continue
        item = record_of(line)
        comment = f"  {line.comment}" if isinstance(line, Line) else ""
        request = request_words(item)
        pairs = pairs_from(answers, at) if item[0] == SCAN else 0
        for shown in range(pairs + 1):
            if at == len(answers):
                raise Misfit(f"no answer to: {request_words(item)}")
            words = pair_words(answers[at]) if shown < pairs else last_words(item, answers[at], pairs)
            if not words:
                raise Misfit(f"answer {at + 1} does not fit: {request_words(item)}: {answers[at].hex()}")
            yield f"{request:<{width}} -> {words}" + (comment if shown == pairs else "")
            request = ""
            at += 1
    if at < len(answers):
        raise Misfit(f"answer {at + 1} has no request: {answers[at].hex()}")


def pairs_from(answers: List[bytes], at: int) -> int:
    """How many pairs the answers to a scan begin with.

    A pair of an empty key and an empty value is byte for byte the end of a scan that found nothing. It was a pair if the end that
    follows counts it.
    """

    def past_pairs(place: int) -> int:
        while place < len(answers) and answers[place][:2] == bytes([0, SCAN]) and any(answers[place][2:4]):
            place += 1
        return place

    if answers[at : at + 1] == [Record(0, SCAN).packed()]:
        end = past_pairs(at + 1)
        return end - at if answers[end : end + 1] == [Record(0, SCAN, end - at).packed()] else 0
    return past_pairs(at) - at


def pair_words(answer: bytes) -> str:
    """A pair of a scan, or nothing where the answer is none."""
    pair = unpacked(answer)
    return f"{spelt(pair.key)} = {spelt(pair.value)}" if pair and pair.count == 0 else ""


def last_words(request: bytes, answer: bytes, pairs: int) -> str:
    """A request's last answer, or nothing where this is none to it. What the words leave out has to be zero."""
    command = request[0] if len(request) == RECORD else 0
    fields = unpacked(answer)
    if not fields or fields.first >= len(NUMBERS):
        return ""
    words, shown = NUMBERS[fields.first], Record(fields.first, command)
    if fields.first:
        words = f"{fields.first} {words}"
    elif command in (1, 2, 3):
        words, shown = f"{words}, slot {request[1]}, version {fields.count}", shown._replace(count=fields.count)
    elif command == 4:
        words, shown = f"{words}, value {spelt(fields.value)}", shown._replace(value=fields.value)
    elif command == SCAN:
        words, shown = f"{words}, {counted(pairs, 'pair')}", shown._replace(count=pairs)
    elif command == 10:
        words, shown = f"{words}, used length {fields.count}", shown._replace(count=fields.count)
    elif command == 11:
        words, shown = f"{words}, {counted(fields.count, 'live key')}", shown._replace(count=fields.count)
    elif command not in (5, 6, 8, 9):
        return ""
    return words if shown == fields else ""


def counted(count: int, thing: str) -> str:
    return f"{count} {thing}" if count == 1 else f"{count} {thing}s"


def said(status: int, message: str) -> int:
    print(message, file=sys.stderr)
    return status


def read_all(name: str) -> bytes:
    if name != "-":
        return pathlib.Path(name).read_bytes()
    if sys.stdin is None:
        raise OSError(0, "standard input is closed")
    return sys.stdin.buffer.read()


def lost(error: OSError) -> int:
    """Words that could not be written. Python would try once more as it ends, and fail with a message of its own."""
    said(1, f"run: standard output: {error.strerror}")
    sys.stderr.flush()
    os._exit(1)


def show(items: List[Item], data: bytes) -> int:
    # A reader that has seen enough, as head, ends this program without a word.
    signal.signal(signal.SIGPIPE, signal.SIG_DFL)
    sys.stdout.reconfigure(encoding="utf-8")
    status, message = 0, ""
    try:
        for line in transcript(items, data):
            print(line)
    except Misfit as misfit:
        status, message = 1, f"run: {misfit}"
    sys.stdout.flush()
    return said(status, message) if message else status


def run(task: str, name: str) -> int:
    try:
        data = read_all(name)
    except OSError as error:
        return said(2, f"run: {name}: {error.strerror}")
    items, faults = (chunks(data), []) if task == "words" else read_source(data)
    for line, message in faults:
        said(2, f"{name}:{line}: {message}")
    if faults:
        return 2
    tape = b"".join(map(record_of, items))
    if task == "make":
        sys.stdout.buffer.write(tape)
        sys.stdout.flush()
        return 0
    ran = subprocess.run([RUN, "-"], input=tape, stdout=subprocess.PIPE, check=False)
    if ran.returncode:
        return said(ran.returncode if ran.returncode > 0 else 1, f"run: no answers to show, status {ran.returncode}")
    return show(items, ran.stdout)


def main(arguments: List[str]) -> int:
    if len(arguments) != 2 or arguments[0] not in ("make", "text", "words"):
        return said(2, "usage: tape.py make|text|words FILE")
    if sys.stdout is None:
        return said(1, "run: standard output is closed")
    try:
        return run(*arguments)
    except OSError as error:
        return lost(error)


if __name__ == "__main__":
    sys.exit(main(sys.argv[1:]))
