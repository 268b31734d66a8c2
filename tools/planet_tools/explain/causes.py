"""What helps behind a note that names no place: what the system says of the files, ports and children of a call."""
from __future__ import annotations

import os
import re
import socket

from planet_tools.explain.forms import FORMS, near
from planet_tools.explain.notes import OTHERS, Told, file_of, read
from planet_tools.explain.pages import sentences
from planet_tools.front.commands import commands

STATUSES = {
    1: "its words are no command", 2: "its file is refused", 3: "a file can't be read",
    4: "its log or its output can't be written", 5: "a port or a frame failed", 6: "a child failed",
    7: "memory was wanted", 8: "a child failed",
}
OPTIONS = ("--help", "--version", "--explain", "--build", "help")
RANGES = {"TURNS": (1, 1_000_000), "SEED": (0, 2**64 - 1), "N": (1, 50_000), "PORT": (0, 65_535)}
NAME_MAX = 255


def reading_fault(name: str) -> str:
    """Says why a file can't be read, or nothing where it can."""
    try:
        with open(name, "rb") as it:
            it.read(1)
    except OSError as error:
        return f"{name}: {error.strerror}"
    return ""


def logs_of(name: str) -> list[str]:
    """Returns the logs that a file for `audit` names."""
    return re.findall(r"^log ([^ \n]+)$", read(name).decode("utf-8", "replace"), re.M)


def read_fault(words: list[str]) -> list[str]:
    """Says which file can't be read, and why."""
    name = file_of(words)
    names = [name, *(logs_of(name) if words[0] == "audit" else [])]
    return [it for it in map(reading_fault, names) if it][:1]


def write_fault(words: list[str]) -> list[str]:
    """Says what couldn't be written, as far as it is seen."""
    text = read(file_of(words)).decode("utf-8", "replace") if words[0] == "node" else ""
    found = re.search(r"^log (.+)$", text, re.M)
    if found:
        folder = os.path.dirname(found[1]) or "."
        if os.path.isdir(found[1]):
            return [f"the log {found[1]} is a folder"]
        if not os.path.isdir(folder):
            return [f"the log {found[1]} can't be made: there is no folder {folder}"]
        if not os.access(found[1] if os.path.exists(found[1]) else folder, os.W_OK):
            return [f"the log {found[1]} can't be written: it or its folder isn't yours to write"]
    return ["standard output didn't take all: the disk is full, or what read it has ended"]


def port_fault(port: int) -> str:
    """Says why a port of loopback can't be bound, or nothing where it can."""
    with socket.socket(socket.AF_INET, socket.SOCK_DGRAM) as tried:
        try:
            tried.bind(("127.0.0.1", port))
        except OSError as error:
            return f"port {port}: {error.strerror}"
    return ""


def link_fault(words: list[str]) -> list[str]:
    """Says which port can't be bound, as far as it is seen."""
    line = {"node": "port", "inject": "from"}.get(words[0], "")
    found = re.search(rf"^{line} (\d+)$", read(file_of(words)).decode("utf-8", "replace"), re.M) if line else None
    fault = port_fault(int(found[1])) if found and 0 < int(found[1]) < 65_536 else ""
    return [fault] if fault else []


def failed_child(note: str, words: list[str]) -> list[str]:
    """Says of a fleet's child which one it is and what its status means."""
    found = re.fullmatch(r"node @(\d+) failed with (\d+)", note)
    if not found:
        return []
    status = int(found[2])
    lines = read(file_of(words)).decode("utf-8", "replace").split("\n")
    files = [it.split(" ")[2] for it in lines if re.match(rf"(?:node|ask) {found[1]} \S", it)]
    meaning = STATUSES.get(status, "which no command has")
    return [f"the child of host {found[1]} ({', '.join(files)}) ended with {status}: {meaning}"]


def usage(words: list[str]) -> list[str]:
    """Says what is wrong with the words of a call."""
    if not words:
        return ["a command must stand behind `planet`"]
    command = words[0]
    known = {it.name: it for it in commands()}
    if command not in known:
        like = near(command, [*known, *OPTIONS])
        kind = "option" if command.startswith("-") else "command"
        return [f"there is no {kind} `{command}`" + (f"; is `{like}` meant?" if like else "")]
    wanted = known[command].takes
    if len(words) - 1 != len(wanted):
        count = f"{len(wanted)} word{'s' * (len(wanted) > 1)}"
        return [f"`{command}` takes {count}, not {len(words) - 1}: planet {known[command].shown}"]
    return [it for it in map(word_fault, words[1:], wanted) if it][:1]


def word_fault(word: str, kind: str) -> str:
    """Says why a word of a call isn't of its kind."""
    if kind == "FILE":
        is_name = 0 < len(os.fsencode(word)) <= NAME_MAX
        return "" if is_name else "the name of a file has 1 to 255 bytes; go into its folder"
    low, high = RANGES[kind]
    is_number = re.fullmatch(r"0|[1-9][0-9]*", word) and low <= int(word) <= high
    return "" if is_number else f"{kind} is a number from {low} to {high}, in digits alone, and `{word}` is none"


def tell(note: str, words: list[str]) -> Told | None:
    """Returns what is told of a note that names no place, or None where it is none that is known."""
    page = sentences()[OTHERS]
    makers = {"read fault": read_fault, "write fault": write_fault, "link fault": link_fault}
    if note.startswith("usage: "):
        return Told("usage", None, [*(usage(words) or [page["usage"]]), "`planet help` has the commands"])
    if note in makers:
        says = makers[note](words) if words and words[0] in FORMS["commands"] else []
        return Told(note, None, says or [page[note]])
    if note in ("spawn fault", "no memory"):
        return Told(note, None, [page[note]])
    if " failed with " in note:
        return Told("failed with", None, failed_child(note, words) or [page["failed with"]])
    return None
