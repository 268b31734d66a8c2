"""The layer for scapy builds and reads the bytes of frames; values of bytes are worked out by hand from the formats."""
from __future__ import annotations

import re
import subprocess
import sys
from typing import Any

import pytest

from planet_tools.frames.layer import layer
from planet_tools.program import ROOT

SCAPY = pytest.importorskip("scapy.packet", reason="scapy is missing, install it with: apt-get install python3-scapy")
L = layer("tests")
ROUTE = "0c64656661756c74526f757465"
# the chunk of `fun f() : unit = ()`, called without arguments
UNIT_CHUNK = "0000010166000020016600"
PACKET = f"504c414e0101 00000001 0000000000000001 00000002 00000009 {ROUTE} {UNIT_CHUNK}"
ADVERT = "504c414e0102 00000002 0003 00000001 00000001 00000002 00000000 00000003 00000001"
SAID = "packet 1.1 dest @2 bound 9 route defaultRoute\n|f|()\nfun f() : unit = ()\n"


def held(text: str) -> bytes:
    """Bytes of hex with blanks."""
    return bytes.fromhex(text.replace(" ", ""))


def built(frame: Any) -> bytes:
    """The bytes that the fields of a frame make, whatever it was read from."""
    frame.clear_cache()
    return bytes(frame)


def test_a_frame_of_defaults_is_a_packet() -> None:
    frame = L.PLAN() / L.PlanPacket()
    assert bytes(frame) == held(PACKET)
    assert frame.said() == SAID


def test_frames_are_read_into_fields_and_built_again() -> None:
    packet = L.PLAN(held(PACKET))
    assert (packet.version, packet.kind, packet.source, packet.bound, packet.routing) == (1, 1, 1, 9, "defaultRoute")
    assert packet.chunk.entry == "f" and packet.chunk.functions[0].name == "f" and packet.chunk.arguments == ()
    advert = L.PLAN(held(ADVERT))
    assert [(it.host, it.cost) for it in advert.rows] == [(1, 1), (2, 0), (3, 1)]
    assert (built(packet), built(advert)) == (held(PACKET), held(ADVERT))
    assert advert.said() == "advert @2\n@1 1\n@2 0\n@3 1\n"
    rows = [L.PlanRow(host=1, cost=1), L.PlanRow(host=2), L.PlanRow(host=3, cost=1)]
    assert bytes(L.PLAN() / L.PlanAdvert(host=2, rows=rows)) == held(ADVERT)
    assert L.PLAN(bytes(L.PLAN() / L.PlanAdvert(rows=[]))).said() == "advert @1\n"


def test_asks_stamps_and_handlers() -> None:
    assert bytes(L.PLAN() / L.PlanAsk(bound=10)) == held(f"504c414e0103 0000000a {UNIT_CHUNK}")
    stamped = L.PLAN(version=2, boot=7, link=3) / L.PlanPacket()
    stamp = "504c414e0201 0000000000000007 0000000000000003"
    assert bytes(stamped) == held(stamp) + held(PACKET)[6:]
    assert L.PLAN(bytes(stamped)).said().split("\n")[0] == f"{SAID.split(chr(10))[0]} boot 7 link 3"
    handles = L.Function("h", (("x", L.STRING),), L.UNIT, L.literal(()))
    chunk = L.chunk_of(L.Program((), (), (handles, L.Function("f", (), L.UNIT, L.literal(())))))
    handled = L.PLAN(version=2, boot=7, link=3) / L.PlanHandled(handler="h", chunk=chunk)
    code = "0000 02 0168 01 0178 04 00 20 0166 00 00 20 0166 00"
    assert bytes(handled) == held(stamp.replace("0201", "0204")) + held(PACKET)[6:39] + held(f"0168 {code}")
    assert handled.said().split("\n")[0].endswith("boot 7 link 3 handler h")
    assert built(L.PLAN(bytes(handled))) == bytes(handled)


def test_values_of_python_are_arguments() -> None:
    values = [
        (), True, -1, L.Char("a"), "\u00e9", b"\xff", L.Host(1), L.Dev(2), [1, 2], (1, "a"), L.empty_list(L.INT),
    ]
    texts = ["()", "true", "~1", "'a'", '"\u00e9"', '#"ff"', "@1", "%2", "[1, 2]", '(1, "a")', "[:int]"]
    spelled = (
        "10", "1101", "12ffffffffffffffff", "1300000061", "140002c3a9", "150001ff", "1600000001", "1700000002",
        "19020002 120000000000000001 120000000000000002", "1a02 120000000000000001 14000161", "19020000",
    )
    for value, text, bytes_said in zip(values, texts, spelled):
        kind = L.type_of(L.value_of(value))
        function = L.Function("f", (("x", kind),), L.UNIT, L.literal(()))
        frame = L.PLAN() / L.PlanAsk(bound=1, chunk=L.chunk_of(L.Program((), (), (function,)), "f", (value,)))
        assert bytes(frame).endswith(held(f"016601 {bytes_said}"))
        assert frame.said().split("\n")[1] == f"|f|({text})"
        assert L.PLAN(bytes(frame)).chunk.arguments == (L.value_of(value),)


@pytest.mark.parametrize("value", [[], 1 << 63, L.Host(-1), L.Dev(1 << 32), L.Char("ab"), "a" * 65_536, {1: 2}, 1.5])
def test_other_things_are_no_values(value: Any) -> None:
    with pytest.raises(ValueError):
        L.value_of(value)


def test_what_no_node_takes_can_be_built_and_is_told() -> None:
    assert (L.PLAN(version=3) / L.PlanPacket()).said() == "BadVersion"
    assert (L.PLAN() / L.PlanPacket(bound=65_536)).said() == "BoundTooLarge"
    ill = L.chunk_of(L.Program((), (), (L.Function("f", (("x", L.INT),), L.UNIT, L.literal(())),)), "f", ("a",))
    assert (L.PLAN() / L.PlanPacket(chunk=ill)).said() == "IllTyped Argument 0"
    assert (L.PLAN() / L.PlanPacket() / b"\x00").said() == "Trailing 50"
    rows = [L.PlanRow(host=2), L.PlanRow(host=1)]
    assert (L.PLAN() / L.PlanAdvert(rows=rows)).said() == "BadOrder 20"


def test_bytes_that_end_early_are_raw_and_the_same_again() -> None:
    for frame in (PACKET, ADVERT, f"504c414e0103 0000000a {UNIT_CHUNK}", f"504c414e0201 {'00' * 16} {PACKET[15:]}"):
        whole = held(frame)
        for size in range(1, len(whole)):
            read = L.PLAN(whole[:size])
            assert built(read) == whole[:size], (frame, size)


def test_datagrams_carry_frames() -> None:
    from scapy.layers.inet import IP, UDP

    packet = L.PLAN() / L.PlanPacket()
    datagram = IP(dst="127.0.0.1") / UDP(sport=40_001, dport=40_002) / packet
    read = IP(bytes(datagram))
    assert read[L.PLAN].said() == SAID and read[L.PLAN].mysummary() == SAID.split("\n", 1)[0]
    assert L.PLAN not in IP(bytes(IP(dst="127.0.0.1") / UDP(sport=40_001, dport=40_002) / b"other"))
    # a port of another layer
    known = IP(dst="127.0.0.1") / UDP(sport=53, dport=53) / packet
    guesses = UDP.payload_guess
    L.bind_port(53)
    assert IP(bytes(known))[L.PLAN].said() == SAID
    UDP.payload_guess = guesses


def test_no_field_hides_a_name_of_scapys() -> None:
    for one in (L.PLAN, L.PlanPacket, L.PlanHandled, L.PlanAdvert, L.PlanAsk, L.PlanRow, L.PlanChunk):
        for it in one.fields_desc:
            assert not hasattr(SCAPY.Packet, it.name), it.name


def test_the_example_of_the_page_prints_what_the_page_shows() -> None:
    page = (ROOT / "docs/use/data.md").read_text("utf-8")
    found = re.search(r"```python\n(.*?)```.*?```\n(.*?)```", page, re.S)
    assert found
    done = subprocess.run([sys.executable, "-c", found[1]], cwd=ROOT, capture_output=True, text=True, check=False)
    assert (done.stdout, done.returncode) == (found[2], 0), done.stderr
