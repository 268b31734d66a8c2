"""Reads files of definitions, `specs/*.antt`: each definition with its place, its comment, its text and what it cites.

A file is read by its indentation: `module _ (..) where` and `mutual` hold definitions one step deeper, a record its
fields, a data its constructors. A word of a definition is a keyword, a name that it binds itself, a name that its file
defines or imports, or else it is told as found nowhere."""
import dataclasses
import pathlib
import re
from typing import Dict, Iterator, List, Optional, Sequence, Set, Tuple, Union

NAME = r"(?P<name>◌\S*◌|[^\s:(){}=,;.]+)"
BEGIN = re.compile(r"(?P<kind>(?:pub )?(?:record |data )(?:pub )?)" + NAME + r"(?= *[:({])"
                   r"|(?P<kind2>(?:unfoldable |abbrev )?(?:pub )?)" + NAME.replace("name", "name2") + r"(?= *:)")
USE = re.compile(r"use ([\w.-]+?)\.?(?:\{(.*)\}|(?<=[\w-]) as (\w+))?$")
MODULE = re.compile(r"module _ (.*) where$")
# a word, a number, a bracket, or a sign between blanks
# a text, a name in guillemets, an operator's name, a word, a number, the dot of a field, a bracket, a sign
TOKEN = re.compile(r"\"(?:\\.|[^\"\\])*\"|«[^»]+»|◌\S*◌|[^\W\d](?:[\w'×≤]|-(?=\w))*|\d\w*|\.(?=[\w«])"
                   r"|[(){}\[\],;.]|[^\s\w(){}\[\],;.«»]+ℤ?")
KEYWORDS = set("""use pub abbrev unfoldable record data module where mutual let in do elim as open unfolding rw
tt Unit absurd Type λ → ← = : × ⊎ ⊥ ¬ ? | ↦ _ ( ) { } [ ] , ; . .f""".split()) | {"\n"}
BUILDS = {"suc", "zero", "true", "false", "tt", "pos", "negsuc", "inl", "inr", "refl", "cons", "nil", "ok", "some"}
KEPT = "use ", "pub mod ", "pub ruleset ", "infixl ", "infixr ", "infix "


class Unreadable(Exception):
    """A line that is no part of a definition."""


@dataclasses.dataclass
class Definition:
    """One definition of a file: its lines with the comment before them, and the names that stand around it."""
    crate: str
    module: str
    name: str
    kind: str
    line: int
    comment: List[str]
    text: List[str]
    around: List[str]
    inside: List[str] = dataclasses.field(default_factory=list)

    @property
    def key(self) -> Tuple[str, str, str]:
        return self.crate, self.module, self.name


@dataclasses.dataclass(frozen=True)
class Origin:
    """Where an imported name comes from: a path as `plan_base.specs.Trees`, and the name there; none for a module."""
    path: str
    name: Optional[str]


class File:
    """A file of definitions."""

    def __init__(self, crate: str, module: str, path: pathlib.Path) -> None:
        self.crate, self.module, self.path = crate, module, path
        self.definitions: Dict[str, Definition] = {}
        self.imports: Dict[str, Origin] = {}
        self.inner: Dict[str, str] = {}
        self.opening: List[str] = []
        self.heads: List[Tuple[int, str]] = []
        self._read(path.read_text("utf-8").split("\n"))

    def _read(self, lines: List[str]) -> None:
        around: List[Tuple[int, str]] = []
        comment: List[str] = []
        last: Optional[Definition] = None
        for number, line in enumerate(lines, 1):
            text = line.strip()
            depth = depth_of(line)
            if not text:
                comment = []
                continue
            around = [it for it in around if it[0] < depth]
            inner = last is not None and depth > depth_of(last.text[0])
            if text.startswith("--") and not inner:
                comment.append(text[2:].strip())
                if text.startswith("-- ----"):
                    self.heads.append((number, text[7:].strip()))
                    comment = []
            elif inner and last is not None:
                last.text.append(line)
            elif text.startswith(KEPT):
                self._keep(text)
                self.opening, comment = self.opening or comment, []
            elif text in ("mutual", "abbrev mutual") or MODULE.match(text):
                around.append((depth, text))
                comment, last = [], None
            else:
                last = self._begin(line, number, comment, [it[1] for it in around], last)
                comment = []
        for it in self.definitions.values():
            it.inside = list(parts_of(it))
            self.inner.update({name: it.name for name in it.inside})

    def _keep(self, text: str) -> None:
        if text.startswith("use "):
            self.imports.update(origins_of(text))

    def _begin(self, line: str, number: int, comment: List[str], around: List[str],
               last: Optional[Definition]) -> Optional[Definition]:
        text = line.strip()
        found = BEGIN.match(text)
        name = found["name"] or found["name2"] if found else ""
        if found and name not in self.definitions and not text.startswith(("(", "_")):
            kind = (found["kind"] or found["kind2"] or "").strip()
            here = Definition(self.crate, self.module, name, kind, number, comment, [line], around)
            self.definitions[here.name] = here
            return here
        is_its = last is not None and ("◌" in last.name or text.split(" ")[0] in (last.name, "unfolding", "}", "})"))
        if last is None or not is_its:
            raise Unreadable(f"{self.path.parent.parent.name}, {self.path.name}, line {number}: no definition: {text}")
        last.text.append(line)
        return last


def origins_of(line: str) -> Iterator[Tuple[str, Origin]]:
    """Yields each name that an import brings, with where it comes from."""
    found = USE.match(line)
    if not found:
        raise Unreadable(f"no import: {line}")
    path = re.sub(r"^Rattle\.", "", found[1])
    if found[2] is None:
        yield found[3] or path.rpartition(".")[2], Origin(path, None)
    for name in filter(str.strip, (found[2] or "").split(",")):
        there, _, here = name.strip().partition(" as ")
        yield here or there, Origin(path, there)


def parts_of(it: Definition) -> Iterator[str]:
    """Yields the fields of a record, or the constructors of a data."""
    if not re.search(r"\b(?:record|data)\b", it.kind):
        return
    step = None
    for line in it.text[1:]:
        depth = depth_of(line)
        found = re.match(r"(?:pub )?([^\s:(){}]+(?: [^\s:(){}]+)*) *:", line.strip())
        if found and not line.rstrip().endswith(" where"):
            step = depth if step is None else step
            if depth == step:
                yield from found[1].split(" ")


class Token(str):
    """A word or a sign, with its place in the text."""
    at: int

    def __new__(cls, text: str, at: int) -> "Token":
        it = super().__new__(cls, text)
        it.at = at
        return it


def tokens_of(text: str) -> List[Token]:
    """Returns the words and signs of a text without comments; the dot of a field is `.f`, that of a binder `.`."""
    tokens: List[Token] = []
    place = 0
    for line in text.split("\n"):
        for it in TOKEN.finditer(re.sub(r"(?:^|(?<=\s))--.*", "", line)):
            is_field = it[0] == "." and it.string[it.end():it.end() + 1].strip()
            tokens.append(Token(".f" if is_field else it[0], place + it.start()))
        place += len(line) + 1
        tokens.append(Token("\n", place - 1))
    return tokens


def depth_of(line: str) -> int:
    return len(line) - len(line.lstrip())


def head_of_part(line: str) -> str:
    """Returns the first name of a field or a constructor that a line begins."""
    found = re.match(r"(?:pub )?([^\s:(){}]+)", line.strip())
    return found[1] if found else ""


def statements(it: Definition) -> Iterator[str]:
    """Yields the signature of a definition and each equation; of a record or a data its head and each part."""
    steps = {depth_of(it.text[0])}
    if it.inside:
        steps |= {depth_of(line) for line in it.text[1:] if head_of_part(line) == it.inside[0]}
    lines: List[str] = []
    for line in it.text:
        if lines and depth_of(line) in steps:
            yield "\n".join(lines)
            lines = []
        lines.append(line)
    yield "\n".join(lines)


def is_word(token: str) -> bool:
    return bool(re.match(r"[^\W\d]|«", token))


def variables(tokens: Sequence[str]) -> Set[str]:
    """Returns the words of a pattern that are variables: what builds a value begins with a capital, or is known to."""
    return {it for at, it in enumerate(tokens)
            if is_word(it) and not it[0].isupper() and it not in BUILDS and tokens[at - 1:at] != [".f"]
            and tokens[at + 1:at + 2] != [".f"]}


def back_to(tokens: Sequence[str], at: int, ends: Tuple[str, ...]) -> Sequence[str]:
    """Returns the tokens before a place, back to the last of these."""
    begin = at
    while begin and tokens[begin - 1] not in ends:
        begin -= 1
    return tokens[begin:at]


def on_to(tokens: Sequence[str], at: int, ends: Tuple[str, ...]) -> Sequence[str]:
    """Returns the tokens from a place on, up to the first of these."""
    end = at
    while end < len(tokens) and tokens[end] not in ends:
        end += 1
    return tokens[at:end]


def bound_by(tokens: Sequence[str]) -> Set[str]:
    """Returns the names that a statement binds: parameters, and the variables of `λ`, `let`, `do` and `elim`."""
    bound: Set[str] = set()
    for at, token in enumerate(tokens):
        if token in ("(", "{"):
            names = on_to(tokens, at + 1, (":", "(", "{", ")", "}", "="))
            if tokens[at + 1 + len(names):at + 2 + len(names)] == [":"] and all(is_word(it) for it in names):
                bound.update(names)
        elif token == "λ":
            bound.update(filter(is_word, on_to(tokens, at + 1, (".",))))
        elif token == "let":
            bound |= variables(on_to(tokens, at + 1, ("=", ":", "←")))
        elif token == "←":
            bound |= variables(back_to(tokens, at, ("\n", "do", ";")))
        elif token == "↦":
            bound |= variables(back_to(tokens, at, ("[", "|", "\n")))
    return bound


def left_of(tokens: Sequence[str]) -> Sequence[str]:
    """Returns the left side of an equation; nothing of a signature."""
    depth = 0
    for at, token in enumerate(tokens):
        depth += (token in ("(", "[", "{")) - (token in (")", "]", "}"))
        if depth == 0 and token in (":", "="):
            return tokens[:at] if token == "=" else []
    return []


def words_used(tokens: Sequence[Token]) -> Iterator[Tuple[Token, str]]:
    """Yields each word or sign that may cite a definition, with the field that stands behind it, if any."""
    for at, token in enumerate(tokens):
        before, behind = tokens[at - 1] if at else "", tokens[at + 1] if at + 1 < len(tokens) else ""
        is_given = behind == "=" and before in ("{", ";", "\n")
        if before != ".f" and not (is_given and is_word(token)):
            yield token, tokens[at + 2] if behind == ".f" and at + 2 < len(tokens) else ""


class Cited:
    """What a definition cites, with each place in its text: definitions of its own file, names of others, and words
    that are found nowhere."""

    def __init__(self, it: Definition, file: File) -> None:
        self.own: Set[str] = set()
        self.origins: Set[Origin] = set()
        self.nowhere: Set[str] = set()
        self.bound: Set[str] = set()
        self.marks: List[Tuple[int, int, Union[str, Origin]]] = []
        self._it, self._file = it, file
        self._signs = signs_of(file)
        always = set(it.inside)
        for head in it.around:
            always |= bound_by(tokens_of(head))
            self._take(tokens_of(head), always, None)
        if it.inside:
            always |= bound_by(tokens_of(next(statements(it))))
        begin = 0
        for text in statements(it):
            tokens = tokens_of(text)
            left = left_of(tokens)
            bound = always | bound_by(tokens) | (variables(left) - {it.name})
            bound |= {word for word in left if is_word(word) and not self._is_known(word)}
            self.bound |= bound
            self._take(tokens, bound, begin)
            begin += len(text) + 1

    def _is_known(self, name: str) -> bool:
        file = self._file
        return name == self._it.name or name in file.definitions or name in file.inner or name in file.imports

    def _take(self, tokens: Sequence[Token], bound: Set[str], begin: Optional[int]) -> None:
        for token, field in words_used(tokens):
            if token == "do":
                self._cite("◌>>=◌", "")
            elif token not in bound and token not in KEYWORDS and not token[0].isdigit() and token[0] != '"':
                for name in self._signs.get(token, [str(token)]):
                    cited = self._cite(name, field)
                    if begin is not None and cited is not None:
                        self.marks.append((begin + token.at, len(token), cited))

    def _cite(self, name: str, field: str) -> Union[str, Origin, None]:
        """Keeps a name that is cited, and returns its definition in the own file or where it comes from."""
        file = self._file
        if name in file.definitions or name in file.inner:
            self.own.add(file.inner.get(name, name))
            return file.inner.get(name, name)
        if name in file.imports:
            origin = file.imports[name]
            origin = Origin(origin.path, str(field) or None) if origin.name is None else origin
            self.origins.add(origin)
            return origin
        if name != self._it.name:
            self.nowhere.add(name)
        return None


def signs_of(file: File) -> Dict[str, List[str]]:
    """Returns the operators in scope by each of their signs, as `>>=` of `◌>>=◌`."""
    signs: Dict[str, List[str]] = {}
    for name in [*file.imports, *file.definitions, *file.inner]:
        if "◌" in name:
            for part in filter(None, name.split("◌")):
                signs.setdefault(part, []).append(name)
    return signs
