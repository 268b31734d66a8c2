"""Runs a program `planet`, and says behind its note what is wrong, where, and what helps."""
from __future__ import annotations

# what signal stands on: signal itself makes enums, for a quarter of the time that a call takes
import _signal as signal  # type: ignore[import]
import os
import select
import sys

USAGE = """usage: explain PROGRAM WORD..

Runs the program with the words. Its output, its notes and its status are as they are; behind a note stands more: the
file, the line and the column, the line with the word that is wrong marked, and a sentence that helps. Where NO_COLOR is
set it has no colours. Where who read the output has ended, as in `.. | head`, nothing is said of it.
"""
NOTE_MAX = 8_192
WRITE_FAULT = b"planet: write fault\n"
STDIN = "/dev/stdin"
HANDED_ON = (signal.SIGINT, signal.SIGTERM, signal.SIGHUP, signal.SIGQUIT)


def has_reader() -> bool:
    """Whether somebody reads standard output, which no longer is so of a pipe whose reader has ended."""
    poll = select.poll()
    poll.register(1, 0)
    return not any(what & select.POLLERR for _, what in poll.poll(0))


def write_note(piece: bytes) -> None:
    """Writes to standard error, where it takes something."""
    try:
        os.write(2, piece)
    except OSError:
        pass


def passed_on(reading: int) -> bytes:
    """Writes what comes to standard error as it comes, but a last note of a pipe without a reader; returns its end."""
    last, held = b"", b""
    while True:
        try:
            piece = os.read(reading, 65_536)
        except InterruptedError:
            continue
        if not piece:
            break
        piece, held = held + piece, b""
        if piece.endswith(WRITE_FAULT):
            piece, held = piece[:-len(WRITE_FAULT)], WRITE_FAULT
        last = (last + piece)[-NOTE_MAX:]
        write_note(piece)
    if not held or not has_reader():
        return last
    write_note(held)
    return last + held


def ran(program: str, words: list[str]) -> tuple[int, bytes]:
    """Runs the program, hands on the signals that come, and returns how it ended and the end of its notes."""
    reading, writing = os.pipe()
    child = os.posix_spawnp(program, [program, *words], os.environ, file_actions=[
        (os.POSIX_SPAWN_DUP2, writing, 2), (os.POSIX_SPAWN_CLOSE, reading), (os.POSIX_SPAWN_CLOSE, writing)])
    os.close(writing)

    def hand_on(number: int, _: object) -> None:
        try:
            os.kill(child, number)
        except ProcessLookupError:
            pass

    for it in HANDED_ON:
        signal.signal(it, hand_on)
    last = passed_on(reading)
    return os.waitpid(child, 0)[1], last


def kept_input(words: list[str]) -> list[str]:
    """Returns the words with a copy of standard input in the place of its name, so that it can be read again."""
    if STDIN not in words:
        return words
    copy = os.memfd_create("standard input", 0)
    while True:
        piece = os.read(0, 65_536)
        if not piece:
            return [f"/proc/self/fd/{copy}" if it == STDIN else it for it in words]
        os.write(copy, piece)


def explain(last: bytes, words: list[str]) -> None:
    """Writes more behind the last note."""
    from planet_tools.explain import causes, notes, show
    lines = last.decode("utf-8", "replace").rstrip("\n").split("\n")
    if not lines[-1].startswith("planet: "):
        return
    note = lines[-1][len("planet: "):]
    told = notes.tell(note, words) or causes.tell(note, words)
    if told:
        has_colour = os.isatty(2) and not os.environ.get("NO_COLOR")
        for line in show.shown(told, has_colour):
            os.write(2, (line + "\n").encode("utf-8", "replace"))


def main(given: list[str]) -> int:
    if not given or given[0] in ("--help", "-h"):
        print(USAGE, end="", file=sys.stdout if given else sys.stderr)
        return 0 if given else 1
    words = given[1:]
    try:
        words = kept_input(words)
        status, last = ran(given[0], words)
    except OSError as error:
        print(f"explain: {given[0]} doesn't run: {error.strerror}", file=sys.stderr)
        return 127
    if os.WIFSIGNALED(status):
        number = os.WTERMSIG(status)
        signal.signal(number, signal.SIG_DFL)
        os.kill(os.getpid(), number)
    if os.WEXITSTATUS(status):
        try:
            explain(last, words)
        except BrokenPipeError:
            pass
    return os.WEXITSTATUS(status)
