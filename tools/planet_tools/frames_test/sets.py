"""Frames to try readers on: those of the rows, those of version 2 that are made of them, and hostile ones."""
from __future__ import annotations

import functools
import importlib.machinery
import importlib.util
import random
import re
import sys
from typing import Any, Dict, Iterable, Iterator, List, Sequence

from planet_tools.frames.layer import layer
from planet_tools.frames.read import FRAME_MAX, HEAD, MAGIC
from planet_tools.frames.trees import BASE_TYPES, LIST_TYPE, TAGS, TUPLE_TYPE, VALUE
from planet_tools.frames.write import name_bytes
from planet_tools.program import ROOT

# of a long frame, beginnings and changed bytes are tried near both its ends
LONG, NEAR = 1_000, 40
RANDOM = 250
# a serial number that no other field has
SERIAL = 2**40
# the kinds of frames of both versions
KINDS = ((1, 1), (1, 2), (1, 3), (2, 1), (2, 2), (2, 4))


@functools.lru_cache(None)
def rows_module() -> Any:
    """The script `rows` as a module: it reads rows and tables."""
    loader = importlib.machinery.SourceFileLoader("rows", str(ROOT / "scripts/test/rows"))
    spec = importlib.util.spec_from_loader("rows", loader)
    assert spec
    module = sys.modules["rows"] = importlib.util.module_from_spec(spec)
    loader.exec_module(module)
    return module


def shown_frames() -> Dict[bytes, str]:
    """The frames of the rows of `show`, each with what it says or the first fault."""
    frames, rows = {}, rows_module()
    for row in (it for it in rows.rows_below(ROOT / "tests/show") if isinstance(it, rows.Row)):
        text = next(iter(row.files.values())).removesuffix(b"\n")
        if row.status == 0:
            frames[bytes.fromhex(text.decode())] = row.output.decode()
        elif row.note.startswith(b"planet: frame "):
            frames[bytes.fromhex(text.decode())] = row.note.decode().removeprefix("planet: frame ").strip()
    return {it: said for it, said in frames.items() if it}


def other_frames() -> List[bytes]:
    """The frames that other rows have on wires, in logs and in forged events."""
    found = set()
    for path in sorted(it for it in (ROOT / "tests").rglob("*") if it.is_file() and it.suffix != ".cases"):
        for text in re.findall(rb"[ ]((?:[0-9a-fA-F]{2})+)$", path.read_bytes(), re.M):
            if len(text) > 8:
                found.add(bytes.fromhex(text.decode()))
    return sorted(it for it in found if it.startswith(MAGIC))


def head_of(version: int, kind: int) -> bytes:
    """The head of a frame without its stamp."""
    return bytes(layer("frames").PLAN(version=version, kind=kind))[:HEAD]


def stamped(frame: bytes, boot: int, link: int) -> bytes:
    """A packet or an advert of version 1 as one of version 2."""
    plan = layer("frames")
    read = plan.PLAN(frame)
    return bytes(plan.PLAN(version=2, kind=read.kind, boot=boot, link=link) / read.payload)


def handled(handler: str, parameter: str = "string", gives: object = ()) -> bytes:
    """A packet with a handler, whose program has a function `h` of one parameter, which gives this, and `f` of none."""
    plan = layer("frames")
    result = plan.UNIT if gives == () else plan.Type("int")
    handles = plan.Function("h", (("x", plan.Type(parameter)),), result, plan.literal(gives))
    program = plan.Program((), (), (handles, plan.Function("f", (), plan.UNIT, plan.literal(()))))
    packet = plan.PlanHandled(serial=SERIAL, handler=handler, chunk=plan.chunk_of(program))
    return bytes(plan.PLAN(version=2, boot=7, link=3) / packet)


def second_version(shown: Dict[bytes, str]) -> Dict[bytes, str]:
    """Frames of version 2, with what they say: packets and adverts with stamps, and packets with handlers."""
    frames = {}
    for frame, said in shown.items():
        if frame[4:6] in (b"\x01\x01", b"\x01\x02") and "\n" in said:
            for boot, link in ((1, 1), (2**64 - 1, 2**64 - 1)):
                first, rest = said.split("\n", 1)
                frames[stamped(frame, boot, link)] = f"{first} boot {boot} link {link}\n{rest}"
    good = handled("h")
    frames[good] = (
        f"packet 1.{SERIAL} dest @2 bound 9 route defaultRoute boot 7 link 3 handler h\n"
        "|f|()\nfun h(x : string) : unit = ()\nfun f() : unit = ()\n"
    )
    # a function without parameters, one that isn't there, one whose parameter is an int, and one that gives an int
    for it in (handled("f"), handled("g"), handled("h", "int"), handled("h", gives=1)):
        frames[it] = "IllTyped Handler"
    frames[handled("if")] = "BadName 55"
    frames[good + b"\x00"] = f"Trailing {len(good)}"
    # kinds that a version doesn't have
    for version, kind in ((1, 4), (2, 3), (2, 0), (2, 5), (1, 0)):
        frames[head_of(version, kind) + good[HEAD:]] = "BadKind"
    return frames


def near_ends(size: int) -> Iterable[int]:
    """The places of a frame that are tried."""
    return range(size) if size <= LONG else [*range(NEAR), *range(size - NEAR, size)]


def hostile_frames(frames: Sequence[bytes]) -> Iterator[bytes]:
    """Frames made to break a reader: each beginning, changed bytes, numbers of ones, random fields, deep ones."""
    draw = random.Random(47)
    for frame in frames:
        for at in near_ends(len(frame)):
            yield frame[:at]
            yield frame[:at] + bytes([draw.randrange(256)]) + frame[at + 1:]
        yield frame + b"\x00"
        yield frame[:HEAD] + b"\xff" * max(0, len(frame) - HEAD)
    packet = layer("frames").PlanPacket()
    front = bytes(packet)[:-len(bytes(packet.chunk))]
    for version, kind in KINDS:
        head = head_of(version, kind)
        for _ in range(RANDOM):
            yield head + draw.randbytes(draw.randrange(1, 200))
            # fields of a frame at random, then tags of few kinds
            yield head + bytes(draw.choice(b"\x00\x00\x00\x01\x02\x08 ac") for _ in range(draw.randrange(1, 200)))
            yield head + front + bytes(draw.choice(b"\x00\x01\x02af ") for _ in range(40))
    yield from deepest_frames()


def ask_taking(*arguments: Any) -> bytes:
    """An ask of a function `f` that takes units."""
    plan = layer("frames")
    parameters = tuple(("x", plan.UNIT) for _ in arguments)
    function = plan.Function("f", parameters, plan.UNIT, plan.literal(()))
    chunk = plan.chunk_of(plan.Program((), (), (function,)), "f", arguments)
    return bytes(plan.PLAN() / plan.PlanAsk(bound=1, chunk=chunk))


def nested(before: bytes, behind: bytes, openings: Iterable[bytes], depths: Sequence[int]) -> Iterator[bytes]:
    """Each opening, as often as these depths say and as a frame has room for."""
    for opening in openings:
        for times in (*depths, (FRAME_MAX - 30) // len(opening)):
            yield before + opening * times + behind


def deepest_frames() -> Iterator[bytes]:
    """Asks that nest each form as deep as bytes allow, and as long as a frame may be, and a byte longer."""
    plain, taking, unit = ask_taking(), ask_taking(None), bytes([0])
    name = name_bytes("f")
    # in front of the body, of the type of the parameter, and of the argument
    body, kind, argument = len(plain) - 4, len(taking) - 7, len(taking) - 1
    behind = {"tuple": b"\x08", "let": name_bytes("x") + unit, "foldl": name, "call": name + b"\x08"}
    forms = ("not", "tuple", "if", "let", "try", "foldl", "call", "eval")
    openings = (bytes([TAGS[it]]) + behind.get(it, b"") for it in forms)
    yield from nested(plain[:body], plain[body:], openings, (63, 64))
    types = bytes([LIST_TYPE]), bytes([TUPLE_TYPE, 8]), bytes([TUPLE_TYPE, 2])
    yield from nested(taking[:kind], taking[kind:], types, (7, 8, 9))
    inner = plain[10:-1] + b"\x01"
    values = (
        bytes([VALUE + LIST_TYPE]) + unit + b"\x00\x01", bytes([VALUE + TUPLE_TYPE, 2]),
        bytes([VALUE + BASE_TYPES.index("chunk")]) + inner,
    )
    yield from nested(taking[:argument], taking[argument:], values, (3, 4, 7, 8, 9))
    yield plain[:10] + b"\xff" * (FRAME_MAX - 10)
    yield plain[:10] + b"\xff" * (FRAME_MAX + 1 - 10)
