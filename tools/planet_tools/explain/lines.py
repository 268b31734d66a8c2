"""Reads a file of lines up to the one that is refused, and finds the word of that line which is wrong."""
from __future__ import annotations

import dataclasses
from typing import Iterator

from planet_tools.explain.forms import (FORMS, NAME, Form, Option, Part, Slot, Word, Wrong, hex_fault, near,
                                        number_fault, oddity, parts_of, shown_kind, words_of)
from planet_tools.explain.values import RESERVED, functions, misfit

END = "end program"
REST_MAX = 65_536
HOSTS_MAX = 32
FILE_NAME_MAX = 255


@dataclasses.dataclass
class Program:
    """A program of a file: the line that begins it, its text, and whether its end came."""

    line: int
    text: str = ""
    is_ended: bool = False


@dataclasses.dataclass
class Seen:
    """What the lines so far have named."""

    own: str = ""
    hosts: list[str] = dataclasses.field(default_factory=list)
    programs: dict[str, Program] = dataclasses.field(default_factory=dict)
    taken: set[tuple[str, str]] = dataclasses.field(default_factory=set)
    last_form: int = -1
    part: int = 0
    lines: int = 0


class File:
    """A file of lines of one header, read line by line."""

    def __init__(self, header: str, text: str) -> None:
        self.header = header
        self.parts = parts_of(header)
        self.lines = text.split("\n")
        self.is_ended = self.lines[-1] == ""
        if self.is_ended:
            self.lines.pop()
        self.seen = Seen(hosts=["1", "2"] if header.startswith("planet port") else [])

    @property
    def part(self) -> Part:
        return self.parts[min(self.seen.part, len(self.parts) - 1)]

    def read_to(self, number: int) -> Program | None:
        """Reads the lines in front of one, and returns the program that is open there."""
        program = None
        for at, line in enumerate(self.lines[1:number - 1], 2):
            if program and line == END:
                program.is_ended = True
                program = None
            elif program:
                program.text += line + "\n"
            elif line and not line.startswith("#"):
                program = self.note(at, words_of(line))
        return program

    def note(self, at: int, words: list[Word]) -> Program | None:
        """Notes what a line that was taken names, and returns the program that it begins."""
        texts, seen = [it.text for it in words], self.seen
        seen.lines += 1
        for number, form in enumerate(self.part.forms):
            if form.first == texts[0]:
                seen.last_form = number
                self.note_names(form, texts)
        if texts[0] == self.part.until:
            seen.part, seen.last_form = seen.part + 1, -1
        if texts[0] == "program":
            return seen.programs.setdefault(texts[1] if len(texts) > 1 else "", Program(at))
        return None

    def note_names(self, form: Form, texts: list[str]) -> None:
        """Notes the hosts, devices, ports and files that the words of a line name."""
        if form.first == "link":
            self.seen.taken |= {(f"device {texts[1]}", texts[2]), (f"device {texts[3]}", texts[4])}
        for slot, text in zip(form.slots, texts):
            if not isinstance(slot, Slot) or slot.is_literal:
                continue
            if slot.kind in ("host", "hosts") and slot.sign != "?":
                self.seen.hosts += texts[1:] if slot.kind == "hosts" else [text]
            if slot.kind == "own":
                self.seen.own = text
            if slot.sign == "!":
                self.seen.taken.add((slot.kind, text))

    def wrongs(self, number: int) -> Iterator[Wrong]:
        """Yields what may be wrong with a line, from the left."""
        line = self.lines[number - 1]
        words = words_of(line)
        form = next((it for it in self.part.forms if it.first == words[0].text), None)
        if form is None:
            yield Wrong("BadWord", 0, max(len(words[0].text), 1), self.unknown_line(words))
            return
        if form.first == "at" and not self.seen.programs:
            yield Wrong("UnknownProgram", 0, 2, "a line `at` needs a program above, from `program` to `end program`")
        yield from self.out_of_place(form, words[0])
        yield from Judge(self, form, words, line).wrongs()
        events = "there are at most 50000 events, and the chunks of all injections weigh at most 16777216"
        yield Wrong("TooMany", 0, len(words[0].text), TOO_MANY.get(form.first if self.seen.part == 0 else "", events))

    def unknown_line(self, words: list[Word]) -> str:
        """Says what may stand in the place of a line whose first word is none."""
        first, known = words[0].text, [it.first for it in self.part.forms]
        odd = oddity(first, len(words) == 1)
        if odd:
            return odd
        if first == self.parts[0].until:
            return f"the line `{first}` stands once, and it stands above"
        for part in self.parts:
            if first in [it.first for it in part.forms]:
                where = "in front of" if part.until else "behind"
                return f"a line `{first}` stands {where} the line `{self.parts[0].until}`"
        like = near(first, known)
        is_later = any(first in [form.first for part in parts_of(it) for form in part.forms] for it in FORMS["files"]
                       if it[:-1] == self.header[:-1])
        if is_later:
            return f"`{first}` is a word of version 2, and this file is of version 1: its first line is `{self.header}`"
        if like:
            return f"no line begins with `{first}`; is `{like}` meant?"
        return f"no line begins with `{first}` here, but with {spoken([f'`{it}`' for it in known], 'or')}"

    def out_of_place(self, form: Form, word: Word) -> Iterator[Wrong]:
        """Yields that a line doesn't stand in its place."""
        part, at = self.part, self.part.forms.index(form)
        first = Wrong("BadWord", word.at, word.at + len(word.text))
        if form.first == "frames" and self.seen.lines:
            yield dataclasses.replace(first, say="`frames` may stand once, as the first line behind the header")
        if not part.is_ordered:
            return
        missing = [it.shown for it in part.forms[self.seen.last_form + 1:at] if not it.may_lack]
        if missing:
            yield dataclasses.replace(first, say=f"the line `{missing[0]}` must stand in front of this one")
        elif at < self.seen.last_form or (at == self.seen.last_form and not form.is_many):
            order = spoken([f"`{it.first}`" for it in part.forms], "and")
            yield dataclasses.replace(first, say=f"the lines stand in this order: {order}")

    def what_must_come(self, program: Program | None) -> str:
        """Says what is missing where the file ends too early."""
        if program:
            return f"the program that begins at line {program.line} has no line `{END}`, which ends it"
        for part in self.parts[self.seen.part:]:
            last = self.seen.last_form if part is self.part else -1
            needed = [it.shown for it in part.forms[last + 1:] if part.is_ordered and not it.may_lack]
            if needed or part.until:
                return f"the file ends here, and a line `{needed[0] if needed else part.until}` must still come"
        return f"the file ends here without a line {spoken([f'`{it.first}`' for it in self.part.forms[:2]], 'or')}"


def spoken(words: list[str], last: str) -> str:
    """Returns words as they are said: a, b or c."""
    return words[0] if len(words) == 1 else ", ".join(words[:-1]) + f" {last} {words[-1]}"


def is_utf8(text: str) -> bool:
    """Whether no byte of a text that was read as UTF-8 is none."""
    return not any("\udc80" <= it <= "\udcff" for it in text)


# by the first word of a line, what is one too many
TOO_MANY = {
    "host": "a network has at most 32 hosts", "log": "an audit has at most 16 logs",
    "node": "a fleet has at most 64 children", "ask": "a fleet has at most 64 children",
    "at": "the chunks that are injected weigh more than 16777216 in all",
    "program": "a schedule has at most 64 programs, and the text of each at most 65536 bytes",
}


class Judge:
    """Judges the words of one line by its form."""

    def __init__(self, file: File, form: Form, words: list[Word], line: str) -> None:
        self.file, self.seen, self.form, self.words, self.line = file, file.seen, form, words, line
        self.at = 0
        self.program: Program | None = next(iter(self.seen.programs.values()), None)
        self.entry = ""
        self.here: list[str] = []

    def wrongs(self) -> Iterator[Wrong]:
        """Yields what may be wrong with the words, from the left."""
        for slot in self.form.slots:
            if isinstance(slot, Option):
                yield from self.option(slot)
            elif slot.kind in ("arguments", "hosts"):
                yield from self.rest(slot.kind)
            else:
                yield from self.slot(slot)
        if self.at < len(self.words):
            word = self.words[self.at]
            odd = oddity(word.text, self.at == len(self.words) - 1)
            # of a space at the end of the line the space itself is marked
            begin = word.at if word.text else word.at - 1
            yield Wrong("BadWord", begin, begin + max(len(word.text), 1),
                        odd or f"nothing may stand behind the words of `{self.form.shown}`")

    def option(self, option: Option) -> Iterator[Wrong]:
        """Yields what is wrong with words that may be left out."""
        while self.at < len(self.words) and self.words[self.at].text == option.slots[0].kind:
            for slot in option.slots:
                yield from self.slot(slot)
            if not option.is_repeated:
                return
        if option.is_repeated and self.at < len(self.words) and self.words[self.at].text:
            word = self.words[self.at]
            yield Wrong("BadWord", word.at, word.at + len(word.text), f"only `{option.slots[0].kind}` may stand here")

    def slot(self, slot: Slot) -> Iterator[Wrong]:
        """Yields what is wrong with the next word."""
        if self.at >= len(self.words):
            what = slot.kind if slot.is_literal else shown_kind(slot.kind)
            say = f"{what} is missing: the line is `{self.form.shown}`"
            yield Wrong("BadWord", len(self.line), len(self.line) + 1, say)
            return
        word = self.words[self.at]
        self.at += 1
        if slot.is_literal:
            if word.text != slot.kind:
                yield self.wrong("BadWord", word, f"`{slot.kind}` must stand here")
            return
        yield from self.judge(slot, word)

    def wrong(self, reason: str, word: Word, say: str) -> Wrong:
        odd = oddity(word.text, self.at >= len(self.words))
        return Wrong(reason, word.at, word.at + max(len(word.text), 1), odd or say)

    def judge(self, slot: Slot, word: Word) -> Iterator[Wrong]:
        """Yields what is wrong with a word in its slot."""
        kind = "host" if slot.kind == "own" else slot.kind
        if kind in FORMS["numbers"]:
            yield from self.number(kind, slot.sign, word)
        elif kind in FORMS["bytes"]:
            fault = hex_fault(word.text, FORMS["bytes"][kind])
            if fault:
                begin = word.at + fault[0]
                odd = oddity(word.text, self.at >= len(self.words))
                yield Wrong("BadArgument", begin, begin + 1, odd or fault[1])
            else:
                yield self.wrong("BadArgument", word, "these bytes spell no typed chunk")
        elif kind == "package":
            yield from self.package(slot, word)
        elif kind == "file":
            yield from self.file_name(slot, word)
        else:
            yield from self.name(kind, slot.sign, word)

    def number(self, kind: str, sign: str, word: Word) -> Iterator[Wrong]:
        """Yields what is wrong with a number, and what it names."""
        fault = number_fault(word.text, kind)
        if fault:
            yield self.wrong("BadNumber", word, fault)
        if kind == "host" and sign == "?" and word.text not in self.seen.hosts:
            hosts = spoken(self.seen.hosts, "and") if self.seen.hosts else "none"
            yield self.wrong("UnknownHost", word, f"host {word.text} isn't named above; the hosts so far: {hosts}")
        if kind == "host" and sign == "!" and word.text in self.seen.hosts:
            yield self.wrong("TwiceNamed", word, f"host {word.text} is named above")
        if kind == "host" and self.form.first in ("link", "dev"):
            yield from self.joined(word)
        if sign == "!" and (kind, word.text) in self.seen.taken:
            what = "port" if kind == "peer" else kind
            yield self.wrong("TwiceNamed", word, f"{what} {word.text} is named above; each may be named once")
        if kind == "device" and self.form.first == "link":
            where = (f"device {self.here[-1] if self.here else ''}", word.text)
            if where in self.seen.taken:
                yield self.wrong("TwiceNamed", word, f"device {word.text} of host {self.here[-1]} has a link above")

    def joined(self, word: Word) -> Iterator[Wrong]:
        """Yields that a link joins a host to itself."""
        if self.form.first == "link" and word.text in self.here:
            yield self.wrong("BadArgument", word, f"a link joins two hosts, and both its ends are at host {word.text}")
        if self.form.first == "dev" and word.text == self.seen.own:
            say = f"host {word.text} is this node itself; a device leads to a neighbour"
            yield self.wrong("BadArgument", word, say)
        self.here.append(word.text)

    def package(self, slot: Slot, word: Word) -> Iterator[Wrong]:
        """Yields what is wrong with the name of a package."""
        known = FORMS["words"]["package"]
        if word.text not in known:
            yield self.wrong("BadWord", word, f"a package is {spoken([f'`{it}`' for it in known], 'or')}")
        if word.text in self.here or (slot.sign == "!" and ("package", word.text) in self.seen.taken):
            yield self.wrong("TwiceNamed", word, f"`without {word.text}` is said already")
        self.here.append(word.text)

    def file_name(self, slot: Slot, word: Word) -> Iterator[Wrong]:
        """Yields what is wrong with the name of a file."""
        if not 1 <= len(word.text.encode("utf-8", "surrogateescape")) <= FILE_NAME_MAX or not is_utf8(word.text):
            yield self.wrong("BadWord", word, "the name of a file is one word of 1 to 255 bytes of UTF-8")
        if slot.sign == "!" and ("file", word.text) in self.seen.taken:
            yield self.wrong("TwiceNamed", word, f"the file {word.text} is named above")

    def name(self, kind: str, sign: str, word: Word) -> Iterator[Wrong]:
        """Yields what is wrong with the name of a program or a function."""
        programs = self.seen.programs
        if kind == "program":
            self.program = programs.get(word.text)
            if self.program is None:
                like = near(word.text, programs)
                meant = f"; is `{like}` meant?" if like else ""
                yield self.wrong("UnknownProgram", word, f"no program `{word.text}` is named above{meant}")
            return
        if not NAME.fullmatch(word.text) or word.text in RESERVED:
            say = "a name must stand here, of 1 to 32 letters, digits and `_`"
            reserved = f"`{word.text}` is a word of the language"
            yield self.wrong("BadWord", word, reserved if word.text in RESERVED else say)
        if sign == "!" and word.text in programs:
            yield self.wrong("TwiceNamed", word, f"a program `{word.text}` begins at line {programs[word.text].line}")
        if kind in ("entry", "handler") and self.program is not None:
            yield from self.function(kind, word)

    def function(self, kind: str, word: Word) -> Iterator[Wrong]:
        """Yields that a function isn't there, or can't handle."""
        known = functions(self.program.text) if self.program else {}
        if kind == "entry":
            self.entry = word.text
        if word.text not in known:
            like = near(word.text, known)
            say = f"the program has no function `{word.text}`"
            yield self.wrong("BadArgument", word, say + (f"; is `{like}` meant?" if like else ""))
        elif kind == "handler" and [it[1] for it in known[word.text]] != ["string"]:
            say = f"a handler has one parameter of type string, and `{word.text}` has others"
            yield self.wrong("BadArgument", word, say)

    def rest(self, kind: str) -> Iterator[Wrong]:
        """Yields what is wrong with the rest of a line."""
        if kind == "hosts":
            yield from self.host_list()
            return
        if self.at >= len(self.words):
            yield from self.slot(Slot(kind))
            return
        begin = self.words[self.at].at
        text = self.line[begin:]
        self.at = len(self.words)
        known = functions(self.program.text) if self.program else {}
        if len(text.encode("utf-8", "surrogateescape")) > REST_MAX:
            yield Wrong("BadArgument", begin, len(self.line), f"the arguments have more than {REST_MAX} bytes")
        elif text.startswith("handler ") and self.file.header.endswith("1"):
            say = "a handler may be named under version 2 alone, which the first line says"
            yield Wrong("BadArgument", begin, begin + 7, say)
        elif self.entry in known:
            fault = misfit(text, self.entry, known[self.entry])
            if fault:
                yield Wrong("BadArgument", begin + fault.begin, begin + fault.end, fault.say)
        say = "these arguments can't be read, don't fit, or make too large a chunk"
        yield Wrong("BadArgument", begin, len(self.line), say)

    def host_list(self) -> Iterator[Wrong]:
        """Yields what is wrong with a list of hosts."""
        last = -1
        while self.at < len(self.words):
            word = self.words[self.at]
            self.at += 1
            fault = number_fault(word.text, "host")
            if fault:
                yield self.wrong("BadNumber", word, fault)
                continue
            if self.at - 1 > HOSTS_MAX:
                yield self.wrong("TooMany", word, f"at most {HOSTS_MAX} hosts may stand here")
            if int(word.text) <= last:
                yield self.wrong("BadArgument", word, f"the hosts ascend, and {word.text} stands behind {last}")
            last = int(word.text)
        if self.seen.own and self.seen.own not in [it.text for it in self.words[1:]]:
            begin = min(len(self.words[0].text) + 1, len(self.line))
            say = f"the node's own host, {self.seen.own}, isn't in this list"
            yield Wrong("BadArgument", begin, len(self.line), say)
