"""Writes captures of UDP datagrams in the format pcapng, with named interfaces and comments."""
from __future__ import annotations

import struct
from dataclasses import dataclass
from typing import Iterator, List, Sequence, Tuple

# the kinds of blocks, the codes of options, and IPv4 without a header of a link
SECTION, INTERFACE, PACKET = 0x0A0D0D0A, 1, 6
COMMENT, NAME, PROGRAM = 1, 2, 4
RAW_IP = 101
SNAP_LENGTH = 262_144
LOOPBACK = bytes([127, 0, 0, 1])
UDP = 17
MICROSECONDS = 1_000_000
# what IPv4 and UDP leave of a datagram
PAYLOAD_MAX = 65_535 - 28


@dataclass(frozen=True)
class Datagram:
    """A datagram over loopback: when, on which interface, from which port to which, what it carries, and a comment."""

    seconds: int
    interface: str
    ports: Tuple[int, int]
    payload: bytes
    comment: str = ""


def padded(data: bytes) -> bytes:
    """Bytes up to a whole number of words of four."""
    return data + bytes(-len(data) % 4)


def option(code: int, text: str) -> bytes:
    """An option of a block, where its text isn't empty."""
    data = text.encode("utf-8")
    return struct.pack("<HH", code, len(data)) + padded(data) if data else b""


def block(kind: int, body: bytes, options: bytes) -> bytes:
    """A block, with its length at both ends."""
    inner = padded(body) + (options + bytes(4) if options else b"")
    length = struct.pack("<I", len(inner) + 12)
    return struct.pack("<I", kind) + length + inner + length


def checksum(data: bytes) -> int:
    """The sum that IPv4 and UDP are checked by."""
    total: int = sum(struct.unpack(f">{(len(data) + 1) // 2}H", data + bytes(len(data) % 2)))
    while total > 0xFFFF:
        total = (total & 0xFFFF) + (total >> 16)
    return ~total & 0xFFFF


def packet_of(ports: Tuple[int, int], payload: bytes) -> bytes:
    """The IPv4 packet of a datagram from a port of loopback to another."""
    length = len(payload) + 8
    pseudo = LOOPBACK + LOOPBACK + struct.pack(">BBH", 0, UDP, length)
    head = struct.pack(">HHH", *ports, length)
    udp = head + struct.pack(">H", checksum(pseudo + head + bytes(2) + payload) or 0xFFFF) + payload
    front = struct.pack(">BBHHHBB", 0x45, 0, 20 + length, 0, 0x4000, 64, UDP)
    return front + struct.pack(">H", checksum(front + bytes(2) + LOOPBACK * 2)) + LOOPBACK * 2 + udp


def blocks_of(datagrams: Sequence[Datagram], program: str) -> Iterator[bytes]:
    """The blocks of a capture: its section, its interfaces in order of their first datagrams, and the datagrams."""
    yield block(SECTION, struct.pack("<IHHq", 0x1A2B3C4D, 1, 0, -1), option(PROGRAM, program))
    numbers: List[str] = list(dict.fromkeys(it.interface for it in datagrams))
    for name in numbers:
        yield block(INTERFACE, struct.pack("<HHI", RAW_IP, 0, SNAP_LENGTH), option(NAME, name))
    places = {name: place for place, name in enumerate(numbers)}
    for it in datagrams:
        packet, moment = packet_of(it.ports, it.payload), it.seconds * MICROSECONDS
        head = struct.pack("<IIIII", places[it.interface], moment >> 32, moment & 0xFFFFFFFF, len(packet), len(packet))
        yield block(PACKET, head + packet, option(COMMENT, it.comment))
