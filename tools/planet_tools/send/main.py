"""The command `send`."""
from __future__ import annotations

import argparse
import errno
import os
import re
import socket
import sys
import time
from dataclasses import dataclass
from typing import Callable, List, NoReturn, Sequence

ABOUT = (
    "Sends each line of hex that stands on standard input as a datagram over loopback, as the owner of a node or one "
    "of its neighbours. A line may begin with the word control, as those that planet cut writes. All lines are read "
    "before the first datagram is sent; empty lines and lines that begin with # say nothing."
)
LOOPBACK = "127.0.0.1"
# a byte more than the longest frame: what a node takes of a datagram
BYTES_MAX = 16_513
LINES_MAX = 50_000
INPUT_MAX = 64 * 1024 * 1024
PAUSE, PAUSE_MAX = 20, 60_000
# seconds in which loopback tells that nobody listens
REFUSAL = 0.05
REFUSED, FAILED = 2, 5
NO_HEX = re.compile(r"[^0-9a-fA-F]")


class Refused(Exception):
    """Why nothing is sent, with its place at the end."""


class Failed(Exception):
    """Why the sending ended early, with its place at the end."""


@dataclass(frozen=True)
class Datagram:
    """What is sent, and the number of its line."""

    line: int
    payload: bytes


class Parser(argparse.ArgumentParser):
    """Ends with one line where the words are wrong."""

    def error(self, message: str) -> NoReturn:
        self.exit(1, f"send: {message}, see send --help\n")


def number_up_to(least: int, most: int, what: str) -> Callable[[str], int]:
    """A reader of numbers in a range."""

    def read(text: str) -> int:
        if not re.fullmatch(r"0|[1-9][0-9]{0,8}", text) or not least <= int(text) <= most:
            raise argparse.ArgumentTypeError(f"{what} from {least} to {most} is wanted, not {text!r}")
        return int(text)

    return read


def payload_of(text: str, line: int) -> bytes:
    """The bytes of a line of hex."""
    hexes = text.removeprefix("control ")
    place = len(text) - len(hexes) + 1
    wrong = NO_HEX.search(hexes)
    if wrong:
        raise Refused(f"{wrong[0]!r} is no hex digit, line {line} byte {place + wrong.start()}")
    if len(hexes) % 2:
        raise Refused(f"an odd number of hex digits, line {line}")
    if not hexes:
        raise Refused(f"no bytes, line {line}")
    if len(hexes) > 2 * BYTES_MAX:
        raise Refused(f"{len(hexes) // 2} bytes, of which a node takes at most {BYTES_MAX}, line {line}")
    return bytes.fromhex(hexes)


def datagrams_of(held: bytes) -> List[Datagram]:
    """The datagrams that lines of hex say."""
    if len(held) > INPUT_MAX:
        raise Refused(f"more than {INPUT_MAX} bytes, standard input")
    found: List[Datagram] = []
    for number, line in enumerate(held.split(b"\n"), 1):
        # a byte that isn't ASCII is no hex digit, so it is refused at its place
        text = line.decode("latin-1")
        if not text or text.startswith("#"):
            continue
        if len(found) == LINES_MAX:
            raise Refused(f"more than {LINES_MAX} datagrams, line {number}")
        found.append(Datagram(number, payload_of(text, number)))
    if not found:
        raise Refused("no line of hex, standard input")
    return found


def bound_at(port: int, to: int) -> socket.socket:
    """A socket at a port of loopback, which sends to another."""
    made = socket.socket(socket.AF_INET, socket.SOCK_DGRAM)
    try:
        made.bind((LOOPBACK, port))
        made.connect((LOOPBACK, to))
    except OSError as fault:
        made.close()
        if fault.errno == errno.EADDRINUSE:
            raise Failed(f"in use by another program, end that or take another port, port {port}") from fault
        raise Failed(f"can't be bound ({fault.strerror}), port {port}") from fault
    return made


def send(datagrams: Sequence[Datagram], source: int, to: int, pause: float) -> None:
    """Sends datagrams with a pause between two, and says each."""
    sent = size = 0
    with bound_at(source, to) as link:
        link.settimeout(REFUSAL)
        for datagram in datagrams:
            if sent:
                time.sleep(pause)
            try:
                link.send(datagram.payload)
                # nobody answers; but where nobody listens, loopback tells it
                if sent == 0 or datagram is datagrams[-1]:
                    heard(link)
            except OSError as fault:
                what = "nobody listens there" if isinstance(fault, ConnectionRefusedError) else str(fault.strerror)
                raise Failed(f"{what}, port {to}, sent {sent} of {len(datagrams)}, line {datagram.line}") from fault
            sent, size = sent + 1, size + len(datagram.payload)
            print(f"line {datagram.line}: {len(datagram.payload)} bytes", flush=True)
    print(f"sent {sent} datagrams of {size} bytes from port {source} to port {to}", flush=True)


def heard(link: socket.socket) -> None:
    """Waits for a moment for the refusal of what was sent."""
    try:
        link.recv(1)
    except socket.timeout:
        pass


def main(given: Sequence[str]) -> int:
    """Does what the words ask for, and answers the exit status."""
    parser = Parser(prog="send", description=ABOUT)
    port = number_up_to(1, 65_535, "a port")
    parser.add_argument("source", metavar="FROM", type=port, help="a node's control port, or the port of a neighbour")
    parser.add_argument("to", metavar="TO", type=port, help="the port of the node")
    parser.add_argument(
        "--pause", metavar="MS", type=number_up_to(0, PAUSE_MAX, "a number of milliseconds"), default=PAUSE,
        help=f"milliseconds between two datagrams ({PAUSE})",
    )
    words = parser.parse_args(given)
    try:
        if words.source == words.to:
            raise Refused(f"the port from which is that to which, port {words.to}")
        send(datagrams_of(sys.stdin.buffer.read(INPUT_MAX + 1)), words.source, words.to, words.pause / 1000)
    except (Refused, Failed) as fault:
        print(f"send: {fault}", file=sys.stderr)
        return REFUSED if isinstance(fault, Refused) else FAILED
    except BrokenPipeError:
        os.dup2(os.open(os.devnull, os.O_WRONLY), sys.stdout.fileno())
        return 1
    return 0
