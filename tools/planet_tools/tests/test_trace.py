"""The command `trace`: exports, counts, kept events and captures, and what it refuses."""
from __future__ import annotations

import json
import struct
from pathlib import Path

import pytest

from planet_tools.trace.main import main

# two packets over a link: the first one is lost, the second one arrives; a third waits
TRACE = """planet trace 1
1 inject @1 1.1 bound 5
1 print @1 "a, b"
1 value @1 1.1 () evals 1 left 2
1 queue @1 %1 1.1 bound 1
2 inject @1 1.2 bound 5
2 value @1 1.2 () evals 0 left 3
2 queue @1 %1 1.2 bound 1
3 send @1 %1 1.1
3 wire 1 504c
4 send @1 %1 1.2
4 wire 2 414e
5 tick @1 now 1
5 drop @1 QueueFull advert
6 off 1
6 lost 1.1 bound 1
7 off 2
7 arrive @2 %3
7 raised @2 1.2 Empty evals 0 left 1
8 inject @1 1.3 bound 9
8 value @1 1.3 () evals 0 left 7
8 queue @1 %1 1.3 bound 1
9 arrive @2 %3
9 drop @2 BadFrame Truncated 0
10 nothing
ledger
1.1 granted 5 hops 1 evals 1 live 0 left 3
1.2 granted 5 hops 1 evals 0 live 0 left 4
1.3 granted 9 hops 1 evals 0 live 1 left 7
end
"""
LOG = "planet log 1\nhost 1\nhosts 1 2\ndev 1 2\nevents\n# two\nframe 1 504c\n\ntick\ncontrol 00\n"


def run(words: list[str], capsysbinary: pytest.CaptureFixture[bytes]) -> tuple[int, str, str]:
    """The status, the output and the notes of the command."""
    try:
        status = main(words)
    except SystemExit as end:
        status = int(str(end.code))
    told = capsysbinary.readouterr()
    return status, told.out.decode(), told.err.decode()


@pytest.fixture
def room(tmp_path: Path, monkeypatch: pytest.MonkeyPatch) -> Path:
    """A folder with a trace and a log."""
    (tmp_path / "run.trace").write_text(TRACE)
    (tmp_path / "node.log").write_text(LOG)
    monkeypatch.chdir(tmp_path)
    return tmp_path


@pytest.mark.parametrize("words", [["json"], ["json", "--lines"]])
@pytest.mark.parametrize("file", ["run.trace", "node.log"])
def test_json_is_the_same_run_again(
    words: list[str], file: str, room: Path, capsysbinary: pytest.CaptureFixture[bytes]
) -> None:
    status, told, _ = run([*words, file], capsysbinary)
    assert status == 0
    (room / "run.json").write_text(told)
    assert run(["text", "run.json"], capsysbinary) == (0, (room / file).read_text(), "")


def test_json_is_an_array_with_an_object_a_line(room: Path, capsysbinary: pytest.CaptureFixture[bytes]) -> None:
    objects = json.loads(run(["json", "run.trace"], capsysbinary)[1])
    assert len(objects) == TRACE.count("\n")
    assert list(objects[1].items()) == [
        ("event", 1), ("kind", "inject"), ("host", 1), ("family", "1.1"), ("bound", 5),
    ]


def test_csv_has_a_row_a_line(room: Path, capsysbinary: pytest.CaptureFixture[bytes]) -> None:
    rows = run(["csv", "run.trace"], capsysbinary)[1].split("\n")
    assert rows[0].startswith("event,kind,host,family,bound,device,value,")
    assert rows[3].startswith('1,print,1,,,,"""a, b""",')
    assert len(rows) == TRACE.count("\n") + 2


def test_tables_of_counts(room: Path, capsysbinary: pytest.CaptureFixture[bytes]) -> None:
    assert run(["csv", "--ledger", "run.trace"], capsysbinary)[1].split("\n")[1] == "1.1,5,1,1,0,3"
    links = run(["csv", "--links", "run.trace"], capsysbinary)[1].split("\n")
    assert links == [
        "host,device,to_host,to_device,hops,adverts,sent,arrivals,lost,on_the_wire,queued,longest_queue",
        "1,1,2,3,3,0,2,1,1,0,1,2", "",
    ]
    families = run(["csv", "--families", "run.trace"], capsysbinary)[1].split("\n")
    assert families[1:] == ["1.1,5,1,1,0,3,1,0,0,0,1", "1.2,5,1,0,0,4,1,1,0,0,0", "1.3,9,1,0,1,7,1,0,0,0,0", ""]


def test_stats_count_ends_drops_and_the_longest_queue(room: Path, capsysbinary: pytest.CaptureFixture[bytes]) -> None:
    data = json.loads(run(["stats", "--json", "run.trace"], capsysbinary)[1])
    assert data["packets_by_end"] == {
        "value": 3, "raised": 1, "spent": 0, "drop": 0, "lost": 1, "queued": 1, "on the wire": 0,
    }
    assert data["drops_by_reason"] == {"BadFrame Truncated": 1, "QueueFull advert": 1}
    assert data["longest_queue"] == {"host": 1, "device": 1, "length": 2, "event": 2}
    text = run(["stats", "run.trace"], capsysbinary)[1]
    assert "Longest queue: 2 in the queue of host 1 device 1, event 2\n" in text


def test_kept_events_bring_what_belongs_to_them(room: Path, capsysbinary: pytest.CaptureFixture[bytes]) -> None:
    lost = run(["filter", "--kind", "lost", "run.trace"], capsysbinary)[1]
    lines = TRACE.split("\n")
    wanted = [lines[0], *(it for it in lines if it.split(" ")[0] in ("1", "3", "6")), "ledger", lines[26], "end", ""]
    assert lost.split("\n") == wanted
    assert run(["filter", "--events", "7", "run.trace"], capsysbinary)[1].split("\n")[-3].startswith("1.2 granted")
    assert run(["filter", "--host", "2", "--family", "1.1", "run.trace"], capsysbinary)[0] == 2


def test_a_row_goes_where_an_event_of_its_family_goes(room: Path, capsysbinary: pytest.CaptureFixture[bytes]) -> None:
    (room / "run.trace").write_text(TRACE.replace("9 drop @2 BadFrame Truncated 0", "9 forged @2 1.1 bound 3"))
    told = run(["filter", "--kind", "forged", "run.trace"], capsysbinary)[1]
    assert told == "planet trace 1\n9 arrive @2 %3\n9 forged @2 1.1 bound 3\nledger\nend\n"


def blocks(path: Path) -> list[tuple[int, bytes]]:
    """The kinds and the bodies of a capture's blocks; the lengths at both ends agree."""
    held, found = path.read_bytes(), []
    while held:
        kind, length = struct.unpack("<II", held[:8])
        assert struct.unpack("<I", held[length - 4:length]) == (length,)
        found.append((kind, held[8:length - 4]))
        held = held[length:]
    return found


def test_a_capture_has_a_datagram_a_frame(room: Path, capsysbinary: pytest.CaptureFixture[bytes]) -> None:
    told = run(["capture", "run.trace", "run.pcapng"], capsysbinary)
    assert told[:2] == (0, "run.pcapng: 2 frames on 1 interfaces\n")
    found = blocks(room / "run.pcapng")
    assert [kind for kind, _ in found] == [0x0A0D0D0A, 1, 6, 6]
    assert b"host 1 %1 - host 2 %3" in found[1][1]
    # the moment of event 3, the ports of hosts 1 and 2, and the frame; then what became of it
    assert struct.unpack("<I", found[2][1][8:12]) == (3_000_000,)
    assert found[2][1][40:44] == struct.pack(">HH", 40_001, 40_002) and found[2][1][48:50] == b"PL"
    assert b"frame 1: lost at event 6" in found[2][1]


def test_a_capture_of_a_log_has_what_was_received(room: Path, capsysbinary: pytest.CaptureFixture[bytes]) -> None:
    assert run(["capture", "--port", "9", "node.log", "run.pcapng"], capsysbinary)[0] == 0
    found = blocks(room / "run.pcapng")
    assert [kind for kind, _ in found] == [0x0A0D0D0A, 1, 1, 6, 6]
    assert [struct.unpack("<I", body[8:12])[0] for _, body in found[3:]] == [1_000_000, 3_000_000]
    assert [struct.unpack(">HH", body[40:44]) for _, body in found[3:]] == [(11, 10), (9, 10)]


def test_a_schedule_adds_links_and_bytes_from_outside(room: Path, capsysbinary: pytest.CaptureFixture[bytes]) -> None:
    head = "planet schedule 1\nframes\nhost 1\nhost 2\nlink 1 1 2 3\nprogram p\nlink\nend program\nevents\n"
    (room / "run.schedule").write_text(head + "# one\n" + "tick 1\n" * 8 + "raw 2 3 FF\ndeliver 9\n")
    words = ["capture", "--schedule", "run.schedule", "run.trace", "run.pcapng"]
    assert run(words, capsysbinary)[:2] == (0, "run.pcapng: 3 frames on 1 interfaces\n")
    assert b"event 9: from outside" in blocks(room / "run.pcapng")[-1][1]


def test_a_capture_that_fails_leaves_what_was_there(room: Path, capsysbinary: pytest.CaptureFixture[bytes]) -> None:
    status, _, notes = run(["capture", "run.trace", "none/run.pcapng"], capsysbinary)
    assert (status, notes) == (2, "trace: can't be written (No such file or directory), none/run.pcapng\n")
    (room / "run.trace").write_text(TRACE.replace(" 504c", "").replace(" 414e", ""))
    (room / "run.pcapng").write_text("kept")
    status, _, notes = run(["capture", "run.trace", "run.pcapng"], capsysbinary)
    assert "'frames'" in notes and (room / "run.pcapng").read_text() == "kept"


REFUSALS = [
    ("planet trace 1\n1 tick\nend\n", "no line of a trace: '1 tick', run.trace line 2"),
    ("planet trace 1\n2 nothing\n1 nothing\nend\n", "event 1 stands behind event 2, run.trace line 3"),
    ("planet trace 1\n0 nothing\nend\n", "event 0 stands behind event 0, run.trace line 2"),
    ("planet trace 1\n1 nothing\n", "the trace ends without its line 'end', run.trace line 3"),
    ("planet trace 1\nend\nend\n", "the line 'end' doesn't belong there, run.trace line 3"),
    (
        "planet trace 1\n1.1 granted 1 hops 0 evals 0 live 0 left 1\nend\n",
        "the line 'row' doesn't belong there, run.trace line 2",
    ),
    ("", "neither 'planet trace 1' nor 'planet log': '', run.trace line 1"),
    ("planet schedule 1\n", "neither 'planet trace 1' nor 'planet log': 'planet schedule 1', run.trace line 1"),
    (
        "planet log 1\nhost 1\nhosts 1\nwithout net\ndev 1 2\nevents\n",
        "the line 'dev' doesn't belong there, run.trace line 5",
    ),
    ("planet log 1\nhost 1\n", "the log ends without its line 'events', run.trace line 3"),
    ("planet log 1\nhost 1\nhosts 1\nevents\nframe 1 0\n", "no line of a log: 'frame 1 0', run.trace line 5"),
]


@pytest.mark.parametrize("text, note", REFUSALS)
def test_what_is_no_run_is_refused(
    text: str, note: str, room: Path, capsysbinary: pytest.CaptureFixture[bytes]
) -> None:
    (room / "run.trace").write_text(text)
    assert run(["json", "run.trace"], capsysbinary) == (2, "", f"trace: {note}\n")


def test_other_refusals_say_what_to_do(room: Path, capsysbinary: pytest.CaptureFixture[bytes]) -> None:
    notes = [
        (["json", "none"], 2, "trace: can't be read (No such file or directory), none\n"),
        (["stats", "node.log"], 2, "trace: a log, write its trace first with: planet replay node.log, node.log "),
        (["filter", "--family", "9.9", "run.trace"], 2, "trace: no event of the trace is wanted, run.trace\n"),
        (["filter", "--kind", "none", "run.trace"], 1, "trace: argument --kind: invalid choice: 'none' "),
        (["capture", "--port", "65535", "run.trace", "x"], 1, "trace: argument --port: a port from 1 to 65471 is "),
    ]
    for words, status, note in notes:
        ended, told, notes_told = run(words, capsysbinary)
        assert (ended, told) == (status, "") and notes_told.startswith(note), notes_told
        assert notes_told.count("\n") == 1
    (room / "run.trace").write_bytes(b"planet trace 1\n1 print @1 \"\xff\"\nend\n")
    assert run(["json", "run.trace"], capsysbinary)[2] == "trace: not UTF-8, run.trace line 2\n"
    (room / "run.json").write_text('[{"kind": "trace"}, {"kind": "nothing", "event": "1"}]')
    assert "no object of a trace's line" in run(["text", "run.json"], capsysbinary)[2]
    (room / "run.json").write_text("[{]")
    assert run(["text", "run.json"], capsysbinary)[2].startswith("trace: no JSON of a trace or a log: ")
