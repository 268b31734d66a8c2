"""What helps where the text of a program is refused, by the word that stands there."""
from __future__ import annotations

import re
import unicodedata

from planet_tools.explain.forms import near
from planet_tools.explain.pages import services
from planet_tools.explain.values import RESERVED, TOKEN, blanked, functions, plain_type

PRIMITIVES = ("hd", "tl", "length", "intToString", "hostToString", "stringToBlob", "blobLength", "blobPart")
EXCEPTIONS = ("Overflow", "DivByZero", "Empty", "BadIndex", "TooLarge", "NoBound", "NoService", "NoRoute",
              "NotNeighbor", "TableFull", "NotFound")
TYPE_WORDS = ("unit", "bool", "int", "char", "string", "blob", "host", "dev", "chunk")
# what is expected and has a sentence of its own on the page
WITH_SENTENCES = ("name", "type", "expression", "declaration", "fun", "value")
LIMITS = {"functions": 64, "services": 64, "exceptions": 64, "parameters": 8, "arguments": 8, "parts": 8, "clauses": 8,
          "items": 63, "nodes": 4_096}
CLOSES = {")": "a round bracket", "]": "a square bracket", "end": "a `let` or a `try`", "in": "the `val` of a `let`",
          "then": "the condition of an `if`", "else": "the first branch of an `if`"}
ELSEWHERE = {
    "&&": "`and`", "||": "`or`", "!": "`not`", "!=": "`<>`", "==": "`=`", "//": "a comment, (* .. *)",
    "--": "a comment, (* .. *)", "function": "`fun`", "def": "`fun`", "elif": "`else if`", "case": "`if`",
    "match": "`if`",
}

NAME_BEHIND = re.compile(rb"(?:raise(?:\s*\[\s*:[^\]]*\])?\s|fold[lr]\s*\(|\||svc\s|exception\s|fun\s)\s*([A-Za-z]\w*)")
CLAUSE = re.compile(rb"(?:\bhandle|\|)\s*([A-Za-z]\w*)\s*=>")
SHAPES = {
    "hd": "`hd` takes a list", "tl": "`tl` takes a list", "length": "`length` takes a list",
    "foldl": "the function that `foldl` applies gives back what it takes first, of the type of the start",
    "foldr": "the function that `foldr` applies gives back what it takes second, of the type of the start",
}
BAD_CHARS = {
    "\\": "",
    "\"": "a blob has two hex digits for each byte, and an odd number stands here",
    "'": "a char is one character in single quotes; a text stands in double ones",
    "%": "a device is `%` and a number, and the remainder is written `mod`",
    "@": "a host is `@` and a number, as @1",
    "#": "a part of a tuple is `#` and a number from 1 to 8, and a blob hex in `#\"..\"`",
    "~": "a negative number is `~` and its digits, without a space; no name may stand behind it",
    **dict.fromkeys("\u201c\u201d\u201e\u201f", "this is a quote of typesetting; texts stand in straight ones, \"\""),
}


def word_at(text: bytes, at: int) -> str:
    """Returns the word that begins at a byte, or nothing at the end."""
    found = TOKEN.match(text[at:].decode("utf-8", "replace"))
    return found[0] if found and not found[0].isspace() else ""


def place_of(reason: str, text: bytes, at: int) -> int:
    """Returns the place of the very name that is refused; the refusal's own is that of what stands around it."""
    if reason not in ("UnknownName", "NotEarlier", "Arity", "TwiceNamed"):
        return at
    found = NAME_BEHIND.match(text, at)
    if found:
        return found.start(1)
    if reason == "UnknownName" and text.startswith(b"try", at):
        known = {*(it.encode() for it in EXCEPTIONS), *re.findall(rb"\bexception\s+(\w+)", text)}
        names = (it for it in CLAUSE.finditer(text, at) if it[1] not in known)
        return next((it.start(1) for it in names), at)
    return at


def hint(reason: list[str], text: bytes, at: int) -> str:
    """Returns a sentence on the very word that is refused, or nothing."""
    word = word_at(text, at)
    plain = text.decode("utf-8", "replace")
    if reason[0] == "UnknownName":
        return unknown(word, plain)
    if reason[0] == "Mismatch":
        return mismatch(" ".join(reason[1:]))
    if reason[0] == "Expected":
        return expected(reason[1], word, text, at)
    if reason[0] == "BadChar":
        return bad_char(text, at)
    if reason[0] == "WrongShape":
        return f"`{word}` is a part of a tuple, and what stands behind has none of that number" if word[0] == "#" else \
            SHAPES.get(word, "")
    if reason[0] == "Arity":
        return arity(word, plain)
    if reason[0] == "TwiceNamed":
        return twice(text, at)
    if reason[0] == "TooMany":
        return f"at most {LIMITS[reason[1]]} {reason[1]} may stand, and this is one more" if reason[1] in LIMITS else ""
    return ""


def unknown(word: str, text: str) -> str:
    """Says what may be meant by a name that nothing has."""
    name = word if re.fullmatch(r"\w+", word) else (re.findall(r"[A-Za-z]\w*", word) or [""])[0]
    known = services()
    if name in known and not re.search(rf"\bsvc\s+{name}\b", blanked(text)):
        kind, more = known[name], ""
        if re.search(r"\ba\b", kind):
            kind, more = re.sub(r"\ba\b", "int", kind), ", with the type that is wanted in the place of int"
        declared = f"write `svc {name} : {kind}` in front{more}"
        return f"`{name}` is a service, and each that is called must be declared: {declared}"
    names = set(re.findall(r"[A-Za-z]\w*", blanked(text))) - RESERVED - {name}
    like = near(name, {*names, *PRIMITIVES, *EXCEPTIONS, *known} - {name})
    return f"nothing that may stand here is named `{name}`" + (f"; is `{like}` meant?" if like else "")


def two_types(text: str) -> tuple[str, str]:
    """Returns the two types that stand behind each other."""
    depth = 0
    words = re.findall(r"\(|\)|\*|\w+", text)
    for at, word in enumerate(words[:-1]):
        depth += (word == "(") - (word == ")")
        if not depth and word != "*" and words[at + 1] != "list":
            return plain_type(" ".join(words[:at + 1])), plain_type(" ".join(words[at + 1:]))
    return text, ""


def mismatch(types: str) -> str:
    wanted, given = two_types(types)
    return f"a value of type {wanted} must stand here, and this is of type {given}"


def expected(what: str, word: str, text: bytes, at: int) -> str:
    """Says what may be wrong where another token must stand."""
    after = word_at(text, at + len(word.encode()))
    if not word:
        return f"the text ends here, and `{what}` must still come" if what not in WITH_SENTENCES else ""
    if word == "-" and after.isdigit() and what in ("expression", "value", ")", "]"):
        return f"a negative number is written with `~`: ~{after}"
    for told in (word + after, word):
        if told in ELSEWHERE:
            return f"`{told}` is written as {ELSEWHERE[told]} in this language"
    if what == "name" and word in RESERVED:
        return f"`{word}` is a word of the language, and no name"
    if what == "type" and near(word, TYPE_WORDS):
        return f"there is no type `{word}`; is `{near(word, TYPE_WORDS)}` meant?"
    if what in CLOSES:
        return f"`{what}` must stand here, or an operator; it closes {CLOSES[what]}"
    return f"`{what}` must stand in the place of `{word}`" if what not in WITH_SENTENCES and len(word) < 40 else ""


def bad_char(text: bytes, at: int) -> str:
    """Names the character that begins no token."""
    char = char_at(text, at)
    for told in (text[at:at + 2].decode("latin-1"), char):
        if told in ELSEWHERE:
            return f"`{told}` is written as {ELSEWHERE[told]} in this language"
    if char in BAD_CHARS:
        return BAD_CHARS[char]
    if not char:
        return f"the byte {text[at]:02x} in hex is no text in UTF-8" if at < len(text) else ""
    if not char.isprintable():
        return f"the character U+{ord(char):04X} can't stand here"
    return f"`{char}`, {unicodedata.name(char, 'a character')} (U+{ord(char):04X}), can't stand here"


def char_at(text: bytes, at: int) -> str:
    """Returns the character at a byte, or nothing where none is spelled there."""
    for end in range(at + 1, min(at + 4, len(text)) + 1):
        try:
            return text[at:end].decode("utf-8")
        except UnicodeDecodeError:
            continue
    return ""


def arity(word: str, text: str) -> str:
    """Says how many arguments a function or service takes."""
    name = word
    known = functions(text)
    if name in known:
        wanted = ", ".join(f"{it[0]} : {it[1]}" for it in known[name])
        return f"`{name}` takes {len(known[name])} argument{'s' * (len(known[name]) != 1)}: ({wanted})"
    declared = re.search(rf"\bsvc\s+{name}\s*:\s*(\([^=]*?)->", blanked(text)) if name else None
    return f"`{name}` is declared with {' '.join(declared[1].split())}" if declared else ""


def twice(text: bytes, at: int) -> str:
    """Says by what a name is taken."""
    name = word_at(text, at)
    if name in PRIMITIVES:
        return f"`{name}` is a primitive of the language; take another name"
    if name in EXCEPTIONS:
        return f"the exception `{name}` is built in; leave the declaration out"
    before = re.search(rb"\b(?:svc|exception|fun)\s+" + re.escape(name.encode()) + rb"\b", text[:at])
    if before and b" " in text[before.start():at].strip():
        return f"`{name}` is declared above, in line {text.count(10, 0, before.start()) + 1}"
    return f"two parameters of `{name}` have one name"
