"""Notes of the program, and the places in files that they speak of."""
from __future__ import annotations

import dataclasses
import pathlib
import re

from planet_tools.explain import lines, programs
from planet_tools.explain.forms import FORMS, Wrong, near
from planet_tools.explain.pages import sentences

TEXTS, EXPECTED, LINES, FRAMES, OTHERS = ("Of the text of a program", "What is expected", "Of a line", "Of a frame",
                                          "The other notes")
AT = re.compile(r"at (\d+): (.+)")
LINE = re.compile(r"line (\d+): (.+)")
LOG_LINE = re.compile(r"log (\d+) (?:line (\d+): (.+)|(TooLong))")
FRAME = re.compile(r"frame (.+)")
FILE_MAX = 4_300_000


@dataclasses.dataclass
class Place:
    """A place in a file: line and column from 1, the line, how many characters are marked. No line: the whole file."""

    file: str
    line: int = 0
    column: int = 0
    text: str = ""
    length: int = 1


@dataclasses.dataclass
class Told:
    """What is told of a note: the reason, where it is, and sentences that help."""

    reason: str
    place: Place | None
    says: list[str]


def file_of(words: list[str]) -> str:
    """Returns the FILE of a command's words, or nothing."""
    if words[:1] == ["gather"]:
        return words[2] if len(words) > 2 else ""
    return words[1] if len(words) > 1 and words[0] in FORMS["commands"] else ""


def read(name: str) -> bytes:
    """Returns the bytes of a file, as many as a command reads; none where it can't be read."""
    try:
        with open(name, "rb") as it:
            return it.read(FILE_MAX)
    except OSError:
        return b""


def place_in(name: str, data: bytes, at: int, word: str = "") -> Place:
    """Returns the place of a byte of a file."""
    begin = data.rfind(b"\n", 0, at) + 1
    end = data.find(b"\n", at)
    line = data[begin:end if end >= 0 else len(data)]
    column = len(data[begin:at].decode("utf-8", "replace")) + 1
    length = max(len(word.split("\n")[0]), 1)
    return Place(name, data.count(b"\n", 0, at) + 1, column, line.decode("utf-8", "replace"), length)


def of_text(reason: str, name: str, data: bytes, begin: int, at: int, text: bytes) -> Told:
    """Tells of a refusal of a program's text, which begins at a byte of its file."""
    words = reason.split(" ")
    page = sentences()
    told = page[TEXTS].get(words[0], "")
    if words[0] == "Expected":
        told = page[EXPECTED].get(words[1], page[EXPECTED]["another token"])
    at = programs.place_of(words[0], text, at)
    hint = programs.hint(words, text, at)
    return Told(reason, place_in(name, data, begin + at, programs.word_at(text, at)), [hint or told])


def header_of(words: list[str], data: bytes) -> str:
    """Returns the header of a file of lines, or the first one that its command takes."""
    first = data.split(b"\n", 1)[0].decode("utf-8", "replace")
    known: list[str] = FORMS["commands"].get(words[0], [])
    return first if first in known else (known or [""])[0]


def of_line(reason: str, number: int, name: str, words: list[str], data: bytes) -> Told:
    """Tells of a refusal of a line of a file."""
    text = data.decode("utf-8", "surrogateescape")
    page = sentences()[LINES]
    header = header_of(words, data)
    if reason == "BadHeader":
        return bad_header(name, words, text, page[reason])
    refused = AT.fullmatch(reason.partition(" ")[2])
    if refused:
        begin = sum(len(it) + 1 for it in data.split(b"\n")[:number])
        end = re.compile(rb"^end program$", re.M).search(data, begin)
        return of_text(refused[2], name, data, begin, int(refused[1]), data[begin:end.start() if end else len(data)])
    file = lines.File(header, text)
    open_program = file.read_to(number)
    if number > len(file.lines):
        last = file.lines[-1] if file.lines else ""
        place = Place(name, max(len(file.lines), 1), len(last) + 1, last)
        return Told(reason, place, [file.what_must_come(open_program)])
    if header.startswith("planet inject"):
        whole = lines.File(header, text)
        whole.read_to(len(whole.lines) + 1)
        file.seen.programs = whole.seen.programs
    whole_line = Wrong(reason, 0, len(file.lines[number - 1]))
    wrong = next((it for it in file.wrongs(number) if it.reason == reason), whole_line)
    place = Place(name, number, wrong.begin + 1, file.lines[number - 1], max(wrong.end - wrong.begin, 1))
    return Told(reason, place, [wrong.say or page[reason]])


def bad_header(name: str, words: list[str], text: str, say: str) -> Told:
    """Tells of a first line that is no header."""
    first = text.split("\n", 1)[0]
    known = FORMS["commands"][words[0]]
    wanted = " or ".join(f"`{it}`" for it in known)
    others = [it for it, headers in FORMS["commands"].items() if first.strip() in headers]
    if first.endswith("\r"):
        more = "the line ends with a carriage return, as under Windows: take them away, as by dos2unix"
    elif others:
        more = f"this is a file for `{others[0]}`, and `{words[0]}` takes one that begins with {wanted}"
    elif first.strip() in known:
        more = "spaces stand in front of the header or behind it; take them away"
    elif not text:
        more = f"the file is empty; its first line is {wanted}"
    elif any(it in text.split("\n") for it in known):
        more = "the header must be the first line, in front of comments and empty lines"
    else:
        like = near(first, known)
        more = f"the first line must be {wanted}" + (f"; is `{like}` meant?" if like and len(known) > 1 else "")
    return Told("BadHeader", Place(name, 1, 1, first, max(len(first), 1)), [more or say])


def of_frame(reason: str, name: str, data: bytes) -> Told:
    """Tells of a refusal of a frame in hex."""
    words = reason.split(" ")
    at = {"BadMagic": 0, "BadVersion": 4, "BadKind": 5}.get(words[0])
    if words[-1].isdigit() and words[0] != "IllTyped":
        at = int(words[-1])
    if words[0] == "BoundTooLarge":
        at = 6 if data[10:12] == b"03" else 38 if data[8:10] == b"02" else 22
    place = Place(name)
    if at is not None:
        width = {"BadMagic": 8, "BoundTooLarge": 8, "BadOrder": 8}.get(words[0], 2)
        place = place_in(name, data, min(2 * at, len(data.rstrip(b"\n"))), "x" * width)
    where = [f"byte {at} of the frame is at fault, counted from 0"] if at is not None else []
    if words[0] == "OverLimit":
        where.insert(0, f"the limit is that of `{words[1]}`")
    if words[0] == "IllTyped":
        where.insert(0, f"what isn't typed is: {' '.join(words[1:])}")
    return Told(reason, place, [*where, sentences()[FRAMES][words[0]]])


def of_hex(name: str, data: bytes) -> Told:
    """Tells of a file that isn't hex."""
    digits = data[:-1] if data.endswith(b"\n") else data
    bad = re.search(rb"[^0-9a-fA-F]", digits)
    at = bad.start() if bad else max(len(digits) - 1, 0)
    say = "an odd number of digits stands here"
    if bad:
        char = bad[0].decode("latin-1")
        named = f"`{char}`" if char.isprintable() else f"the byte {ord(char):02x}"
        known = {"\r": "a carriage return is no hex digit", "\n": "a second line is one too many"}
        say = known.get(char, f"{named} is no hex digit")
    return Told("BadHex", place_in(name, data, at), [say, sentences()[OTHERS]["BadHex"]])


def of_log(found: re.Match[str], name: str, data: bytes) -> Told:
    """Tells of a log that an audit reads."""
    logs = re.findall(r"^log ([^ \n]+)$", data.decode("utf-8", "replace"), re.M)
    number = int(found[1])
    log = logs[number - 1] if number <= len(logs) else name
    if found[4]:
        return Told("TooLong", Place(log), [sentences()[OTHERS]["TooLong"]])
    told = of_line(found[3], int(found[2]), log, ["gather", "0", log], read(log))
    if found[3] == "TwiceNamed" and found[2] == "2":
        told.says.insert(0, "a log in front of this one is of the same host")
    return told


def tell(note: str, words: list[str]) -> Told | None:
    """Returns what is told of a note behind `planet: `, or None where it is none that a file caused."""
    name = file_of(words)
    data = read(name)
    at, line, log, frame = (it.fullmatch(note) for it in (AT, LINE, LOG_LINE, FRAME))
    if at:
        return of_text(at[2], name, data, 0, int(at[1]), data)
    if line:
        return of_line(line[2], int(line[1]), name, words, data)
    if log:
        return of_log(log, name, data)
    if frame:
        return of_frame(frame[1], name, data)
    if note == "BadHex":
        return of_hex(name, data)
    if note == "TooLong":
        size = f"it has {pathlib.Path(name).stat().st_size} bytes" if pathlib.Path(name).is_file() else ""
        return Told(note, Place(name), [it for it in (size, sentences()[OTHERS][note]) if it])
    return None
