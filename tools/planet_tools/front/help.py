"""Writes help on all commands or on one, without the program."""
from __future__ import annotations

import sys
import textwrap

from planet_tools.front.commands import Command, commands, options, plain, statuses

WIDTH, INDENT = 100, 22


def told(words: str, about: str) -> str:
    """Returns words and what they do beside them."""
    head = f"  {words}"
    filled = textwrap.fill(about.replace("`", ""), WIDTH, initial_indent=" " * INDENT, subsequent_indent=" " * INDENT)
    return head.ljust(INDENT) + filled[INDENT:] if len(head) < INDENT else head + "\n" + filled


def overview() -> str:
    """Returns the help on all commands."""
    lines = ["planet: a node and tool for PLAN active packets", "", "usage: planet COMMAND ..", ""]
    lines += [told(it.shown, it.brief) for it in commands()]
    lines += ["", "Words of the launcher:", "", *(told(words, about) for words, about in options().items())]
    lines += ["", "Where FILE stands, - is standard input. Exit codes:", ""]
    lines += [told(str(code), about.partition(";")[0].partition(":")[0]) for code, about in statuses().items()]
    return "\n".join([*lines, "", "planet help COMMAND says more of a command."]) + "\n"


def of_command(command: Command) -> str:
    """Returns the help on one command."""
    lines = [f"usage: planet {command.shown}", "", textwrap.fill(command.about.replace("`", ""), WIDTH), ""]
    for kind, text in command.lines.items():
        if kind == "Ends with":
            known = statuses()
            lines += ["Ends with:", ""]
            lines += [told(code, known[int(code)]) for code in text.split(", ")]
        else:
            body = plain(text).replace("`", "")
            lines += [textwrap.fill(f"{kind}: {body}", WIDTH, subsequent_indent="  "), ""]
    return "\n".join(lines) + "\n"


def main(words: list[str]) -> int:
    """Writes the help on a command, or on all."""
    known = {it.name: it for it in commands()}
    name = words[0] if words else ""
    if not name:
        sys.stdout.write(overview())
        return 0
    if name in known:
        sys.stdout.write(of_command(known[name]))
        return 0
    import difflib
    like = difflib.get_close_matches(name, known, 1, 0.5)
    meant = f"; is {like[0]} meant?" if like else ""
    print(f"planet: no command is named {name}{meant} `planet help` has all", file=sys.stderr)
    return 1
