"""A layer for scapy: frames of both versions over UDP, with their chunks, programs and values as fields.

    PLAN()/PlanPacket(source=1, serial=1, destination=2, bound=9, chunk=chunk_of(program, "f", (5, "text")))
    PLAN(version=2, boot=7, link=3)/PlanAdvert(host=2, rows=[PlanRow(host=1, cost=1)])

Fields build the bytes that a node writes and read what it reads. Limits and types aren't looked at when bytes are
built, so that frames which no node takes can be sent; `PLAN.said()` tells what `planet show` says of the bytes. What
can't be read behind a head is Raw."""
from __future__ import annotations

import os
import sys
from typing import Any, Callable, Generic, List, Optional, Sequence, Tuple, TypeVar, Union

sys.path.append(os.path.dirname(os.path.dirname(os.path.realpath(__file__))))

from scapy.config import conf  # noqa: E402
from scapy.fields import (  # noqa: E402
    ByteEnumField, ByteField, ConditionalField, Field, FieldLenField, IntField, LongField, PacketField, PacketListField,
    StrFixedLenField,
)
from scapy.layers.inet import UDP  # noqa: E402
from scapy.packet import Packet, bind_layers  # noqa: E402

from planet_tools.frames import read, texts, trees, write  # noqa: E402
from planet_tools.frames.judge import said_of  # noqa: E402
from planet_tools.frames.make import Char, Dev, Host, chunk_of, empty_list, literal, type_of, value_of  # noqa: E402
from planet_tools.frames.trees import (  # noqa: E402
    BLOB, BOOL, CHAR, CHUNK, DEV, HOST, INT, STRING, UNIT, Chunk, Expr, Function, Program, Service, Type, Value,
    list_of,
)

__all__ = [
    "PLAN", "PlanPacket", "PlanHandled", "PlanAdvert", "PlanAsk", "PlanRow", "PlanChunk", "bind_port",
    "Char", "Chunk", "Dev", "Expr", "Function", "Host", "Program", "Service", "Type", "Value",
    "BLOB", "BOOL", "CHAR", "CHUNK", "DEV", "HOST", "INT", "STRING", "UNIT",
    "chunk_of", "empty_list", "list_of", "literal", "type_of", "value_of",
]
KINDS = {read.PACKET: "packet", read.ADVERT: "advert", read.ASK: "ask", read.HANDLED: "packet with a handler"}
T = TypeVar("T")


class NameField(Field):
    """A name: its length in a byte, and its letters."""

    def __init__(self, name: str, default: str) -> None:
        super().__init__(name, default, "B")

    def getfield(self, pkt: Packet, s: bytes) -> Tuple[bytes, str]:
        """Reads a name; one that is none ends the reading of the layer."""
        reader = read.Reader(s)
        word = reader.name()
        return s[reader.at:], word

    def addfield(self, pkt: Packet, s: bytes, val: str) -> bytes:
        """Writes a name of any letters, up to 255 bytes."""
        return s + write.name_bytes(val)

    def any2i(self, pkt: Packet, x: Union[str, bytes]) -> str:
        """A name may be given as bytes."""
        return x.decode() if isinstance(x, bytes) else x

    def i2repr(self, pkt: Packet, x: str) -> str:
        """The name itself."""
        return x

    def randval(self) -> str:
        """A name for `fuzz`."""
        return str(self.default)


class TreesField(Field, Generic[T]):
    """Trees behind their count: services, exceptions, functions or arguments."""

    __slots__ = ["reads", "writes", "says", "takes"]
    islist = 1

    def __init__(
        self, name: str, reads: Callable[[read.Reader], Tuple[T, ...]], writes: Callable[[Sequence[T]], bytes],
        says: Callable[[T], str], takes: Callable[[Any], T],
    ) -> None:
        self.reads, self.writes, self.says, self.takes = reads, writes, says, takes
        super().__init__(name, (), "B")

    def getfield(self, pkt: Packet, s: bytes) -> Tuple[bytes, Tuple[T, ...]]:
        """Reads the trees."""
        reader = read.Reader(s)
        found = self.reads(reader)
        return s[reader.at:], found

    def addfield(self, pkt: Packet, s: bytes, val: Sequence[T]) -> bytes:
        """Writes the trees."""
        return s + self.writes(val)

    def any2i(self, pkt: Packet, x: Sequence[Any]) -> Tuple[T, ...]:
        """Trees may be given as what they are made of."""
        return tuple(map(self.takes, x))

    def i2repr(self, pkt: Packet, x: Sequence[T]) -> str:
        """The trees as `planet show` prints them."""
        return "; ".join(map(self.says, x))

    def randval(self) -> Tuple[T, ...]:
        """No tree, for `fuzz`."""
        return ()


class Whole(Packet):
    """A layer that is read whole or not at all: scapy takes what ends early as Raw."""

    # fields that may have no bytes
    may_be_empty: Tuple[str, ...] = ()

    def do_dissect(self, s: bytes) -> bytes:
        """Reads the fields, each of which must be there."""
        # what stands there are defaults
        self.fields.clear()
        rest: bytes = super().do_dissect(s)
        missing = [it.name for it in self.fields_desc if it.name not in (*self.fields, *self.may_be_empty)]
        if missing:
            raise ValueError(f"the bytes end before {missing[0]}")
        return rest


def service_of(it: Service) -> Service:
    """A service as it is given."""
    return it


def function_of(it: Function) -> Function:
    """A function as it is given."""
    return it


class PlanChunk(Whole):
    """A chunk: its program, the name of its entry, and its arguments."""

    name = "chunk"
    fields_desc = [
        TreesField("services", read.Reader.services, write.services_bytes, texts.service_text, service_of),
        TreesField("exceptions", read.Reader.exceptions, write.exceptions_bytes, str, str),
        TreesField("functions", read.Reader.functions, write.functions_bytes, texts.function_text, function_of),
        NameField("entry", "f"),
        TreesField("arguments", read.Reader.arguments, write.arguments_bytes, texts.value_text, value_of),
    ]

    def extract_padding(self, s: bytes) -> Tuple[bytes, bytes]:
        """What stands behind a chunk isn't its own."""
        return b"", s

    def tree(self) -> Chunk:
        """The chunk as a tree."""
        program = Program(tuple(self.services), tuple(self.exceptions), tuple(self.functions))
        return Chunk(program, self.entry, tuple(self.arguments))

    @classmethod
    def of(cls, chunk: Chunk) -> "PlanChunk":
        """The layer of a tree."""
        it = chunk.program
        return cls(
            services=it.services, exceptions=it.exceptions, functions=it.functions, entry=chunk.entry,
            arguments=chunk.arguments,
        )


class ChunkField(PacketField):
    """A chunk, which may be given as a tree."""

    def __init__(self, name: str) -> None:
        super().__init__(name, PlanChunk(functions=[Function("f", (), UNIT, literal(()))]), PlanChunk)

    def any2i(self, pkt: Packet, x: Union[Chunk, PlanChunk]) -> PlanChunk:
        """A tree as its layer."""
        given: PlanChunk = PlanChunk.of(x) if isinstance(x, Chunk) else super().any2i(pkt, x)
        return given


class PLAN(Packet):
    """The head of a frame; under version 2 with its stamp."""

    name = "PLAN"
    fields_desc = [
        StrFixedLenField("magic", read.MAGIC, 4),
        ByteField("version", 1),
        ByteEnumField("kind", read.PACKET, KINDS),
        ConditionalField(LongField("boot", 0), lambda it: it.version == 2),
        ConditionalField(LongField("link", 0), lambda it: it.version == 2),
    ]

    @classmethod
    def dispatch_hook(cls, _pkt: Optional[bytes] = None, *_: Any, **__: Any) -> Any:
        """Bytes that have no head of a frame are Raw."""
        if _pkt is None:
            return cls
        head = read.STAMPED_HEAD if _pkt[4:5] == b"\x02" else read.HEAD
        return cls if _pkt.startswith(read.MAGIC) and len(_pkt) >= head else conf.raw_layer

    def said(self) -> str:
        """What `planet show` says of the frame's bytes: its text, or the first fault without a line feed."""
        return said_of(bytes(self))

    def tree(self) -> trees.Frame:
        """The frame as a tree, from its fields."""
        if not isinstance(self.payload, (PlanPacket, PlanHandled, PlanAdvert, PlanAsk)):
            raise ValueError(f"no frame: {self.said()}")
        what = self.payload.tree()
        return trees.Frame(what, trees.Stamp(self.boot, self.link) if self.version == 2 else None)

    def mysummary(self) -> str:
        """The first line of what `planet show` says."""
        said = self.said()
        return f"PLAN {said}" if said[-1:] != "\n" else said.split("\n", 1)[0]


class PlanPacket(Whole):
    """A packet behind its head."""

    name = "packet"
    fields_desc = [
        IntField("source", 1), LongField("serial", 1), IntField("destination", 2), IntField("bound", 9),
        NameField("routing", trees.DEFAULT_ROUTE), ChunkField("chunk"),
    ]

    def tree(self) -> trees.Packet:
        """The packet as a tree."""
        return trees.Packet(self.source, self.serial, self.destination, self.bound, self.routing, self.chunk.tree())


class PlanHandled(Whole):
    """A packet with a handler behind its head and its stamp."""

    name = "packet with a handler"
    fields_desc = [*PlanPacket.fields_desc[:-1], NameField("handler", "h"), ChunkField("chunk")]

    def tree(self) -> trees.Packet:
        """The packet as a tree."""
        return trees.Packet(
            self.source, self.serial, self.destination, self.bound, self.routing, self.chunk.tree(), self.handler
        )


class PlanRow(Whole):
    """A row of an advert: a host, and the cost of the route to it."""

    name = "row"
    fields_desc = [IntField("host", 1), IntField("cost", 0)]

    def extract_padding(self, s: bytes) -> Tuple[bytes, bytes]:
        """What stands behind a row isn't its own."""
        return b"", s


class PlanAdvert(Whole):
    """An advert behind its head: its host and its rows."""

    name = "advert"
    may_be_empty = ("rows",)
    fields_desc = [
        IntField("host", 1), FieldLenField("count", None, count_of="rows", fmt="!H"),
        PacketListField("rows", [], PlanRow, count_from=lambda it: it.count),
    ]

    def do_dissect(self, s: bytes) -> bytes:
        """Reads the rows, as many as are told."""
        rest = super().do_dissect(s)
        if not all(isinstance(it, PlanRow) for it in self.rows) or len(self.rows) != self.count:
            raise ValueError("the bytes end before the last row")
        return rest

    def tree(self) -> trees.Advert:
        """The advert as a tree."""
        return trees.Advert(self.host, tuple((it.host, it.cost) for it in self.rows))


class PlanAsk(Whole):
    """An owner's request behind its head."""

    name = "ask"
    fields_desc = [IntField("bound", 9), ChunkField("chunk")]

    def tree(self) -> trees.Ask:
        """The ask as a tree."""
        return trees.Ask(self.bound, self.chunk.tree())


def bind_port(port: int) -> None:
    """Has datagrams from and to a port read as frames, also where scapy knows another protocol there."""
    guesses: List[Tuple[dict[str, int], type]] = [({"sport": port}, PLAN), ({"dport": port}, PLAN)]
    UDP.payload_guess = guesses + UDP.payload_guess


# each kind of frame, and frames in datagrams whose ports no other layer has
bind_layers(PLAN, PlanPacket, kind=read.PACKET)
bind_layers(PLAN, PlanAdvert, kind=read.ADVERT)
bind_layers(PLAN, PlanAsk, kind=read.ASK)
bind_layers(PLAN, PlanHandled, kind=read.HANDLED)
bind_layers(UDP, PLAN)
