"""The command `send`: lines of hex as datagrams, what it says, and what it refuses."""
from __future__ import annotations

import io
import socket
import sys
from typing import Iterator

import pytest

from planet_tools.send.main import BYTES_MAX, LINES_MAX, Refused, datagrams_of, main


@pytest.fixture
def node() -> Iterator[socket.socket]:
    """A socket that takes what is sent."""
    made = socket.socket(socket.AF_INET, socket.SOCK_DGRAM)
    made.bind(("127.0.0.1", 0))
    made.settimeout(5)
    yield made
    made.close()


def free_port() -> int:
    """A port that nothing has."""
    with socket.socket(socket.AF_INET, socket.SOCK_DGRAM) as made:
        made.bind(("127.0.0.1", 0))
        port = made.getsockname()[1]
    assert isinstance(port, int)
    return port


class Input:
    """Standard input with these bytes."""

    def __init__(self, held: bytes) -> None:
        self.buffer = io.BytesIO(held)


def run(monkeypatch: pytest.MonkeyPatch, held: bytes, *words: object) -> int:
    """The status of the command."""
    monkeypatch.setattr(sys, "stdin", Input(held))
    try:
        return main([*map(str, words)])
    except SystemExit as end:
        return int(str(end.code))


def test_lines_are_sent_in_order_from_the_port(
    node: socket.socket, monkeypatch: pytest.MonkeyPatch, capsys: pytest.CaptureFixture[str]
) -> None:
    source, to = free_port(), node.getsockname()[1]
    assert run(monkeypatch, b"# parts\n00ff\n\ncontrol 504C414E", source, to, "--pause", 0) == 0
    peer = "127.0.0.1", source
    assert [node.recvfrom(100) for _ in range(2)] == [(b"\x00\xff", peer), (b"PLAN", peer)]
    told = f"line 2: 2 bytes\nline 4: 4 bytes\nsent 2 datagrams of 6 bytes from port {source} to port {to}\n"
    assert capsys.readouterr().out == told


@pytest.mark.parametrize(
    "held, note",
    [
        (b"00\n0g\n", "'g' is no hex digit, line 2 byte 2"),
        (b"control 0\xe9", "'\xe9' is no hex digit, line 1 byte 10"),
        (b"00 \n", "' ' is no hex digit, line 1 byte 3"),
        (b"00\r\n", "'\\r' is no hex digit, line 1 byte 3"),
        (b"000\n", "an odd number of hex digits, line 1"),
        (b"control \n", "no bytes, line 1"),
        (b"frame 1 00\n", "'r' is no hex digit, line 1 byte 2"),
        (b"00" * (BYTES_MAX + 1), f"{BYTES_MAX + 1} bytes, of which a node takes at most {BYTES_MAX}, line 1"),
        (b"\n# none\n", "no line of hex, standard input"),
        (b"00\n" * (LINES_MAX + 1), f"more than {LINES_MAX} datagrams, line {LINES_MAX + 1}"),
    ],
)
def test_what_is_no_hex_is_refused(held: bytes, note: str) -> None:
    with pytest.raises(Refused) as refused:
        datagrams_of(held)
    assert str(refused.value) == note


def test_the_longest_datagram_is_taken() -> None:
    assert len(datagrams_of(b"00" * BYTES_MAX)[0].payload) == BYTES_MAX


def test_nothing_is_sent_where_a_line_is_refused(
    node: socket.socket, monkeypatch: pytest.MonkeyPatch, capsys: pytest.CaptureFixture[str]
) -> None:
    assert run(monkeypatch, b"00\nx\n", free_port(), node.getsockname()[1]) == 2
    assert capsys.readouterr().err == "send: 'x' is no hex digit, line 2 byte 1\n"
    node.settimeout(0.1)
    with pytest.raises(socket.timeout):
        node.recv(10)


def test_ports_that_cannot_be_used_are_told(
    node: socket.socket, monkeypatch: pytest.MonkeyPatch, capsys: pytest.CaptureFixture[str]
) -> None:
    taken, free = node.getsockname()[1], free_port()
    assert run(monkeypatch, b"00\n", taken, free) == 5
    note = f"send: in use by another program, end that or take another port, port {taken}\n"
    assert capsys.readouterr().err == note
    assert run(monkeypatch, b"00\n11\n", free, free_port()) == 5
    assert "nobody listens there" in capsys.readouterr().err
    assert run(monkeypatch, b"00\n", taken, taken) == 2
    assert capsys.readouterr().err.startswith("send: the port from which is that to which")
    for words in (["0", "1"], ["1", "65536"], ["1"], ["x", "1"], ["1", "2", "--pause", "-1"]):
        assert run(monkeypatch, b"00\n", *words) == 1
        assert capsys.readouterr().err.count("\n") == 1
