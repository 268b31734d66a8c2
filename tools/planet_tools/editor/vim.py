"""The syntax of programs and of files of lines for vim."""
from __future__ import annotations

from typing import Iterable

from planet_tools.editor import words

# by kind of word, the group of vim that colours it
LINKS = {
    "declaration": "Keyword", "control": "Conditional", "operator": "Operator", "form": "Special", "type": "Type",
    "constant": "Boolean", "primitive": "Function", "service": "Function", "exceptions": "Exception",
}
LITERALS = r"""
syn match planEscape contained /\\\%([ntr"'\\]\|x[0-7]\x\)/
syn region planString start=/"/ end=/"/ oneline contains=planEscape
syn match planChar /'\%(\\[ntr"'\\]\|\\x[0-7]\x\|[^\\']\)'/
syn match planBlob /#"\x*"/
syn match planNumber /\~\=\<\d\+\>/
syn match planHost /@\d\+\>/
syn match planDevice /%\d\+\>/
syn match planPart /#[1-8]\>/
""".strip()
LITERAL_GROUPS = "planString,planChar,planBlob,planNumber,planHost,planDevice,planPart"
LITERAL_LINKS = {
    "planEscape": "SpecialChar", "planString": "String", "planChar": "Character", "planBlob": "String",
    "planNumber": "Number", "planHost": "Constant", "planDevice": "Constant", "planPart": "Constant",
}
OPENING = """" {about}, by scripts/pages/editor
if exists('b:current_syntax')
  finish
endif
syn case match
"""


def links(groups: dict[str, str]) -> list[str]:
    return [f"hi def link {name} {group}" for name, group in groups.items()]


def closing(name: str) -> list[str]:
    return ["", f"let b:current_syntax = '{name}'", ""]


def alternatives(texts: Iterable[str]) -> str:
    return r"\%(" + r"\|".join(texts) + r"\)"


def of_programs() -> str:
    """Returns the syntax of programs."""
    groups = {f"plan{kind.capitalize()}": LINKS[kind] for kind in words.kinds()}
    lines = [OPENING.format(about="The syntax of programs in PLAN"), LITERALS, ""]
    lines += [f"syn keyword plan{kind.capitalize()} {' '.join(known)}" for kind, known in words.kinds().items()]
    lines += [
        r"syn match planName /\%(\<\%(fun\|svc\|exception\)\s\+\)\@<=\h\w*/",
        r"syn match planChunk /|\s*\h\w*\s*|/",
        r"syn match planSign /::\|->\|=>\|<>\|<=\|>=\|[-=<>+*\/^]/",
        r"syn region planComment start=/(\*/ end=/\*)/ contains=planComment,planTodo",
        "syn keyword planTodo contained TODO FIXME XXX",
        "syn sync fromstart",
        "",
        *links({**groups, **LITERAL_LINKS, "planName": "Identifier", "planChunk": "Identifier", "planSign": "Operator",
                "planComment": "Comment", "planTodo": "Todo"}),
        *closing("plan"),
    ]
    return "\n".join(lines)


def of_kind(header: str) -> list[str]:
    """Returns the lines that colour files of this header."""
    first, behind = words.line_words(header)
    inner = rf"  syn match planetInner / \zs{alternatives(behind)}\ze\%( \|$\)/"
    return [
        f"elseif s:kind ==# '{header.partition(' ')[2]}'",
        rf"  syn match planetWord /^{alternatives(first)}\ze\%( \|$\)/",
        *([inner] if behind else []),
    ]


def of_traces() -> list[str]:
    """Returns the lines that colour traces and their ledgers."""
    acts, behind = words.trace_words()
    return [
        "if s:kind ==# 'trace 1'",
        rf"  syn match planetInner / \zs{alternatives(behind)}\ze\%( \|$\)/",
        r"  syn match planetEvent /^\d\+\ze /",
        rf"  syn match planetWord /\%(^\d\+ \)\@<={alternatives(acts)}\ze\%( \|$\)/",
        r"  syn match planetWord /^\%(ledger\|end\)$/",
        r"  syn match planetFamily /\%(^\| \)\zs\d\+\.\d\+\ze\%( \|$\)/",
    ]


def of_lines() -> str:
    """Returns the syntax of files of lines, whose first line says of what kind they are."""
    lines = [
        OPENING.format(about="The syntax of the files of lines of planet, whose first line says of what kind they are"),
        "syn include @planProgram syntax/plan.vim", "unlet! b:current_syntax", "", LITERALS, "",
        r"let s:kind = matchstr(getline(1), '^planet \zs[a-z]\+ [12]\ze$')",
        "if s:kind !=# 'trace 1'",
        r"  syn match planetWrong /^[^ #]\S*/",
        r"  syn match planetWrong / $\|\t\|\r/",
        "endif",
        *of_traces(),
    ]
    for header in words.headers():
        lines += of_kind(header)
    lines += [
        "endif",
        r"syn match planetHeader /\%1l^planet [a-z]\+ [12]$/",
        r"syn match planetComment /^#.*/",
        r"syn match planetHex / \zs\%(\x\x\)\{4,}\ze\%( \|$\)/",
        r"syn region planetProgram matchgroup=planetWord start=/^program\%( \w\+\)\=$/ end=/^end program$/ keepend "
        "contains=@planProgram",
        "syn sync match planetSync grouphere planetProgram /^program\\%( \\w\\+\\)\\=$/",
        "syn sync match planetSync grouphere NONE /^end program$/",
        "",
        *links({**LITERAL_LINKS, "planetHeader": "PreProc", "planetComment": "Comment", "planetWord": "Statement",
                "planetInner": "Type", "planetHex": "String", "planetEvent": "LineNr", "planetFamily": "Identifier",
                "planetWrong": "Error"}),
        *closing("planet"),
    ]
    return "\n".join(lines)


def detection() -> str:
    """Returns how vim knows the files: a program by its name, a file of lines by its first line."""
    kinds = dict.fromkeys([*(it.split()[1] for it in words.headers()), "trace"])
    return "\n".join([
        '" How files of planet are known: programs by name, others by their first line; by scripts/pages/editor',
        "autocmd BufRead,BufNewFile *.plan setfiletype plan",
        rf"autocmd BufRead,StdinReadPost * if getline(1) =~# '^planet {alternatives(kinds)} [12]$' "
        "| set filetype=planet | endif",
        "",
    ])
