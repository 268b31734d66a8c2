"""The forms of the lines of traces, ledgers and logs, as trace_forms.json has them: a line as an object, and back."""
from __future__ import annotations

import json
import re
from dataclasses import dataclass
from pathlib import Path
from typing import Callable, Dict, List, Mapping, Optional, Pattern, Tuple, Union

TABLE = Path(__file__).resolve().parent.parent / "trace_forms.json"
FIELD = re.compile(r"\{(\w+)(?::(\w+))?\}")
Value = Union[int, str, List[int]]
Line = Dict[str, Value]
# of a type: what a field's text is in an object
MADE: Dict[str, Callable[[str], Value]] = {
    "number": int,
    "numbers": lambda text: [int(word) for word in text.split(" ")],
    "text": str,
}


class Refused(Exception):
    """Why an input isn't taken, in words, with its place at the end."""


@dataclass(frozen=True)
class FieldType:
    """A type of fields: its name, what a field of it is in an object, and the mark and the pattern of its text."""

    name: str
    made: str
    mark: str
    pattern: str
    words: Tuple[str, ...]

    def text_of(self, value: Value) -> Optional[str]:
        """The text of a field without its mark, or nothing where the value isn't of this type."""
        if self.made == "numbers":
            text = " ".join(map(str, value)) if isinstance(value, list) else ""
        elif isinstance(value, bool) or not isinstance(value, int if self.made == "number" else str):
            return None
        else:
            text = str(value)
        return text if re.fullmatch(self.pattern, text) else None


@dataclass(frozen=True)
class Form:
    """A form of lines: its kind, and its words, of which a field is a name and a type."""

    part: str
    kind: str
    meaning: str
    version: int
    words: Tuple[Union[str, Tuple[str, FieldType]], ...]

    @property
    def fields(self) -> Dict[str, FieldType]:
        """The types of the fields by their names, in order."""
        return dict(word for word in self.words if not isinstance(word, str))

    @property
    def pattern(self) -> str:
        """What its lines match, each field a group."""
        return " ".join(
            re.escape(word) if isinstance(word, str) else f"{re.escape(word[1].mark)}({word[1].pattern})"
            for word in self.words
        )

    def text_of(self, line: Mapping[str, Value]) -> Optional[str]:
        """The line that an object of this form stands for, or nothing where it is of another one."""
        texts = []
        for word in self.words:
            if isinstance(word, str):
                texts.append(word)
                continue
            text = word[1].text_of(line[word[0]])
            if text is None:
                return None
            texts.append(word[1].mark + text)
        return " ".join(texts)


def type_of(name: str, said: Mapping[str, object]) -> FieldType:
    """A type as the table says it."""
    found = said.get("words")
    words = tuple(map(str, found)) if isinstance(found, list) else ()
    pattern = "|".join(map(re.escape, words)) if words else str(said["pattern"])
    return FieldType(name, str(said["as"]), str(said.get("mark", "")), f"(?:{pattern})", words)


def form_of(row: Mapping[str, object], types: Mapping[str, FieldType]) -> Form:
    """A form as the table says it."""
    words: List[Union[str, Tuple[str, FieldType]]] = []
    for word in str(row["line"]).split(" "):
        field = FIELD.fullmatch(word)
        words.append((field[1], types[field[2] or field[1]]) if field else word)
    version = row.get("version", 1)
    assert isinstance(version, int)
    return Form(str(row["part"]), str(row["kind"]), str(row["meaning"]), version, tuple(words))


def forms_of(path: Path = TABLE) -> Dict[str, List[Form]]:
    """The forms of each kind of file, `trace` and `log`."""
    table = json.loads(path.read_text("utf-8"))
    types = {name: type_of(name, said) for name, said in table["types"].items()}
    return {file: [form_of(row, types) for row in rows] for file, rows in table["files"].items()}


# how a form's lines are read: what they match, what stands in front of the fields, and what makes each of its text
Reading = Tuple[Pattern[str], Line, Tuple[Tuple[str, Callable[[str], Value]], ...]]


class Lines:
    """Reads and writes the lines of one kind of file."""

    def __init__(self, forms: List[Form]) -> None:
        self.forms = forms
        self.by_word: Dict[str, List[Reading]] = {}
        self.others: List[Reading] = []
        self.by_fields: Dict[Tuple[str, frozenset[str]], List[Form]] = {}
        for form in forms:
            self.add(form)

    def add(self, form: Form) -> None:
        """Puts a form where its lines are looked for: by its first word, or the second one where a number is first."""
        fields = tuple((name, MADE[kind.made]) for name, kind in form.fields.items())
        # an event's number stands before the kind
        front: Line = {"event": 0, "kind": form.kind} if "event" in form.fields else {"kind": form.kind}
        reading = re.compile(form.pattern), front, fields
        first = form.words[1] if not isinstance(form.words[0], str) and len(form.words) > 1 else form.words[0]
        (self.by_word.setdefault(first, []) if isinstance(first, str) and first else self.others).append(reading)
        self.by_fields.setdefault((form.kind, frozenset(form.fields)), []).append(form)

    def read(self, text: str) -> Optional[Line]:
        """The object of a line, or nothing where it has none of the forms."""
        words = text.split(" ", 2)
        first = words[1] if len(words) > 1 and words[0][:1].isdigit() else words[0]
        for pattern, front, fields in self.by_word.get(first, self.others):
            found = pattern.fullmatch(text)
            if found:
                line = front.copy()
                for (name, made), said in zip(fields, found.groups()):
                    line[name] = made(said)
                return line
        return None

    def write(self, line: Mapping[str, Value]) -> Optional[str]:
        """The line of an object, or nothing where it is the object of none."""
        kind = line.get("kind")
        for form in self.by_fields.get((str(kind), frozenset(line) - {"kind"}), ()):
            text = form.text_of(line)
            if text is not None:
                return text
        return None


FORMS = forms_of()
TRACE = Lines(FORMS["trace"])
LOG = Lines(FORMS["log"])
