"""What clauses reach: from the names that they cite, each definition, each type of the code and each name of std or a
ported crate, through all that these cite in turn. A name that is cited and found nowhere is told."""
from __future__ import annotations

import dataclasses
import pathlib
import re
import sys

sys.path.insert(0, str(pathlib.Path(__file__).resolve().parent.parent))
from sources import PROGRAM, ROOT, crates  # noqa: E402
from antt import (KEYWORDS, Cited, Definition, File, Origin, Unreadable, bound_by, is_word, origins_of,  # noqa: E402
                  tokens_of, words_used)
from rattle import Function, Source, Type, sources_of  # noqa: E402

CRATES = ROOT / "crates"
# the clauses of the headline
CLAUSES = "replayed", "keeps"
LOGIC = "base", "denote", "mathlib", "lib", "Prim"


@dataclasses.dataclass(frozen=True)
class Place:
    """Where something stands that clauses reach: `kind` is `definition`, `type` or `outside`."""
    kind: str
    crate: str
    module: str
    name: str


class Nowhere(Exception):
    """A name that is cited and found nowhere."""


class Code:
    """The types that the sources of one crate declare, by their names, and what each source imports."""

    def __init__(self, crate: str) -> None:
        self.crate = crate
        self.types: dict[str, tuple[str, Type]] = {}
        self.models: dict[str, str] = {}
        self.imports: dict[str, dict[str, str]] = {}
        self.consts: dict[str, tuple[str, int]] = {}
        self.exports: dict[str, str] = {}
        for source in sources_of(CRATES / crate):
            self._add(source)

    def _add(self, source: Source) -> None:
        module = source.path.relative_to(CRATES / self.crate / "src").with_suffix("").as_posix().replace("/", ".")
        for it in source.types:
            self.types.setdefault(it.name, (module, it))
        for name in re.findall(r"^pub trait (\w+)", source.text, re.M):
            at = line_of(source.text, rf"^pub trait {name}\b")
            self.types.setdefault(name, (module, Type(name, "trait", at, True, [], [])))
        for name in re.findall(r"^pub(?:\(crate\))? const (\w+)", source.text, re.M):
            self.consts[name] = module, line_of(source.text, rf"^pub.* const {name}\b")
        for name, body in re.findall(r"^impl[^\n]*? Model for (\w+)[^\n]*\{\n(.*?)^\}", source.text, re.M | re.S):
            self.models[name] = body
        self.imports[module] = {}
        for path in re.findall(r"^(?:pub )?use ([^;]*);", source.text, re.M):
            self._import(module, re.sub(r"\s+", "", path))

    def _import(self, module: str, path: str) -> None:
        crate = path.partition("::")[0]
        for name in re.findall(r"\w+", path.partition("::")[2]):
            self.imports[module][name] = self.crate if crate == "crate" else crate
            if module == "lib":
                self.exports[name] = self.imports[module][name]


def line_of(text: str, pattern: str) -> int:
    found = re.search(pattern, text, re.M)
    return text[:found.start()].count("\n") + 1 if found else 0


class Graph:
    """All that clauses may reach, read where it is first asked for."""

    def __init__(self) -> None:
        self._known = crates()
        self._files: dict[tuple[str, str], File] = {}
        self._codes: dict[str, Code] = {}

    def file(self, crate: str, module: str) -> File:
        key = crate, module
        if key not in self._files:
            path = CRATES / crate / "specs" / (module.replace(".", "/") + ".antt")
            if not path.exists():
                raise Nowhere(f"{crate} has no file specs/{module.replace('.', '/')}.antt")
            try:
                self._files[key] = File(crate, module, path)
            except Unreadable as it:
                raise Nowhere(str(it)) from None
        return self._files[key]

    def code(self, crate: str) -> Code:
        if crate not in self._codes:
            self._codes[crate] = Code(crate)
        return self._codes[crate]

    def definition(self, place: Place) -> Definition:
        return self.file(place.crate, place.module).definitions[place.name]

    def line_of(self, place: Place) -> int:
        """Returns the line of a definition, a type or a constant."""
        if place.kind == "definition":
            return self.definition(place).line
        code = self.code(place.crate)
        return code.types[place.name][1].line if place.name in code.types else code.consts[place.name][1]

    def place_of(self, origin: Origin) -> Place | None:
        """Returns where an imported name leads; nothing where only a module is meant, of which no name is cited."""
        parts = origin.path.split(".")
        crate = parts[0]
        is_ours = crate in self._known and (CRATES / crate).is_dir()
        if crate in LOGIC or not is_ours or parts[1] == "proofs":
            return Place("outside", crate, ".".join(parts[1:]), origin.name or parts[-1])
        if parts[1:3] in (["specs", "declared"], ["specs", "contracts"]):
            return self._declared(crate, parts[3:], origin)
        module = ".".join(parts[2:])
        if origin.name is None:
            return None
        file = self.file(crate, module)
        name = file.inner.get(origin.name, origin.name)
        if name not in file.definitions:
            raise Nowhere(f"{origin.name} isn't in specs/{module}.antt of {crate}")
        return Place("definition", crate, module, name)

    def _declared(self, crate: str, parts: list[str], origin: Origin) -> Place:
        """Returns the type of the code that a generated file of definitions is made from."""
        code = self.code(crate)
        if parts[-1] == "TheConstants":
            if origin.name not in code.consts:
                raise Nowhere(f"no constant {origin.name} in {crate}")
            return Place("type", crate, code.consts[str(origin.name)][0], str(origin.name))
        name = next((it for it in reversed(parts) if it in code.types), None)
        if name is None:
            raise Nowhere(f"no type of {origin.path} in {crate}")
        return Place("type", crate, code.types[name][0], name)

    def cited(self, place: Place) -> list[Place]:
        """Returns what stands at a place cites, in its order."""
        if place.kind == "definition":
            return self._cited_by_definition(place)
        return self._cited_by_type(place) if place.kind == "type" else []

    def _cited_by_definition(self, place: Place) -> list[Place]:
        file = self.file(place.crate, place.module)
        cited = Cited(file.definitions[place.name], file)
        if cited.nowhere:
            words = ", ".join(sorted(cited.nowhere))
            raise Nowhere(f"{words} in {place.name}, specs/{place.module}.antt of {place.crate}")
        own = [Place("definition", place.crate, place.module, it) for it in cited.own]
        found = [self.place_of(it) for it in cited.origins]
        return own + [it for it in found if it is not None and it != place]

    def _cited_by_type(self, place: Place) -> list[Place]:
        code = self.code(place.crate)
        if place.name not in code.types:
            return []
        _, declared = code.types[place.name]
        if place.name in code.models:
            return self._cited_by_model(code.models[place.name])
        found = [self.type_of(code, place.module, it) for it in words_of_type(declared)]
        return [it for it in found if it is not None and it != place]

    def _cited_by_model(self, body: str) -> list[Place]:
        """Returns what the model of a type cites: contracts see its value, and not the fields."""
        value = re.search(r"ghost Value = \{(.*?)\};", body, re.S)
        imports = {name: it for line in re.findall(r"ghost (use [^;]*);", body) for name, it in origins_of(line)}
        words = tokens_of(value[1]) if value else []
        found = [self.place_of(imports[it]) for it in words if it in imports]
        return [it for it in found if it is not None]

    def type_of(self, code: Code, module: str, name: str) -> Place | None:
        """Returns the type that a source means by a name; nothing for one of std."""
        crate = code.imports.get(module, {}).get(name, code.crate)
        while crate in self._known and (CRATES / crate).is_dir():
            there = self.code(crate)
            if name in there.types:
                return Place("type", crate, there.types[name][0], name)
            if there.exports.get(name, crate) == crate:
                return None
            crate = there.exports[name]
        return None


def words_of_type(declared: Type) -> list[str]:
    """Returns the names of types in a declaration, without those of its variants and itself."""
    text = re.sub(r"//[^\n]*|#\[[^\]]*\]|ghost [^;]*;", "", "\n".join(declared.text))
    if declared.word == "enum":
        text = re.sub(r"(?m)^    \w+", "", text)
    words = re.findall(r"\b[A-Z]\w*\b", text)
    return [it for it in dict.fromkeys(words) if it != declared.name]


def top() -> tuple[Source, Function]:
    """Returns the call that has the headline, and its source."""
    for path in sorted(ROOT.glob("crates/*/src/*.rt")):
        if re.search(r"^    ensures replayed ", path.read_text("utf-8"), re.M):
            source = Source(path)
            for it in source.functions:
                if it.name == PROGRAM:
                    return source, it
    raise Nowhere("a call with the clauses of the headline")


def roots(graph: Graph) -> list[Place]:
    """Returns what the clauses of the headline cite, in their order."""
    source, call = top()
    uses = re.findall(r"^ghost (use [^;]*);", source.text, re.M)
    imports = {name: it for line in uses for name, it in origins_of(line)}
    head = "\n".join(call.head)
    known = set(re.findall(r"(\w+): ", head)) | {"result"} | set(re.findall(r"\b[A-Z]\b", head)) | KEYWORDS
    code = graph.code(source.path.parts[-3])
    found: dict[Place, None] = {}
    for clause in call.clauses:
        tokens = tokens_of(clause.term) if clause.name in CLAUSES else []
        bound = bound_by(tokens)
        for word, _ in words_used(tokens):
            operator = next((it for it in imports if it.strip("◌") == word), None)
            place = graph.place_of(imports[operator]) if operator else graph.type_of(code, source.path.stem, word)
            if place:
                found[place] = None
            elif is_word(word) and word not in known | bound:
                raise Nowhere(f"{word} in the clause {clause.name}")
    return list(found)


def reached(graph: Graph, roots: list[Place]) -> tuple[list[Place], list[str]]:
    """Returns all that the roots reach, by crate, each behind what it cites; and what is found nowhere."""
    order: dict[Place, list[Place]] = {}
    seen: set[Place] = set()
    lost: list[str] = []
    waiting: list[tuple[Place, list[Place] | None]] = [(it, None) for it in reversed(roots)]
    while waiting:
        place, done = waiting.pop()
        if done is not None:
            order[place] = done
        elif place not in seen:
            seen.add(place)
            cited: list[Place] = []
            try:
                cited = sorted(set(graph.cited(place)), key=dataclasses.astuple, reverse=True)
            except Nowhere as it:
                lost.append(str(it))
            waiting.append((place, cited))
            waiting += [(it, None) for it in cited if it not in seen]
    return by_crate(order), lost


def by_crate(order: dict[Place, list[Place]]) -> list[Place]:
    """Returns these by crate, lowest first, and in each by file as far as what is cited stands before what cites it."""
    rank = {name: at for at, name in enumerate(crates())}
    place_in = {it: at for at, it in enumerate(order)}
    found: list[Place] = []
    left = sorted(order, key=lambda it: rank.get(it.crate, -1))
    done: set[Place] = set()
    while left:
        # what is cited and found no earlier is cited in a circle
        ready = [it for it in left if it.crate == left[0].crate
                 and all(one in done or place_in[one] >= place_in[it] for one in order[it])]
        last = found[-1] if found else ready[0]
        following = [it for it in ready if (it.kind, it.module) == (last.kind, last.module)] or ready
        found.append(following[0])
        done.add(following[0])
        left.remove(following[0])
    return found
