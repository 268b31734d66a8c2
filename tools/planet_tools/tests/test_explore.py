"""Pages of traces hold them as data, and the logs of a fleet become one run whose frames the audit would accept."""
from __future__ import annotations

import base64
import hashlib
import json
import re
from pathlib import Path
from typing import List

import pytest

from planet_tools.explore import page
from planet_tools.explore.fleet import Merged, matches, read_audit
from planet_tools.explore.logs import Log, Step
from planet_tools.explore.main import main
from planet_tools.trace.forms import LOG, Refused

ONE, TWO = b"PLAN one", b"PLAN two"
LINKS = {(1, 1): (2, 1), (2, 1): (1, 1)}


def step(entry: str, *lines: str, sent: bytes = b"") -> Step:
    """A step of a log."""
    read = LOG.read(entry)
    assert read
    return Step(read, list(lines), sent)


def sends(device: int, frame: bytes) -> Step:
    """A step that sends a frame."""
    return step(f"take {device}", f"send @1 %{device} 1.1", sent=frame)


def takes(frame: bytes, *lines: str) -> Step:
    """A step to which a frame comes on device 1."""
    return step(f"frame 1 {frame.hex()}", "arrive @2 %1", *lines)


def logs(one: List[Step], two: List[Step]) -> List[Log]:
    """The logs of hosts 1 and 2."""
    return [Log("one.log", 1, 1, 0, one), Log("two.log", 2, 1, 0, two)]


def test_frames_of_the_same_bytes_are_matched_in_order() -> None:
    found = logs([sends(1, ONE), sends(1, TWO), sends(1, ONE)], [takes(TWO), takes(ONE), takes(ONE), takes(ONE)])
    assert matches(found, LINKS) == {(1, 0): (0, 1), (1, 1): (0, 0), (1, 2): (0, 2)}


@pytest.mark.parametrize("drop", ["BadFrame Misplaced", "Repeated 1.1 bound 3", "TooOld advert"])
def test_a_frame_that_is_not_accepted_is_matched_with_none(drop: str) -> None:
    found = logs([sends(1, ONE)], [takes(ONE, f"drop @2 {drop}"), takes(ONE, "value @2 1.1 () evals 0 left 1")])
    assert matches(found, LINKS) == {(1, 1): (0, 0)}


def test_a_device_without_a_link_was_sent_nothing() -> None:
    assert matches(logs([sends(1, ONE)], [takes(ONE)]), {}) == {}


def test_device_0_is_its_own_other_end() -> None:
    found = logs([sends(0, ONE), step(f"frame 0 {ONE.hex()}", "arrive @1 %0")], [])
    assert matches(found, {}) == {(0, 1): (0, 0)}


def test_what_is_sent_comes_before_what_it_leads_to() -> None:
    found = logs([step("tick", "tick @1 now 1"), sends(1, ONE)], [takes(ONE), step("tick", "tick @2 now 1")])
    assert Merged(found, matches(found, LINKS)).text(None).split("\n") == [
        "planet trace 1", "1 tick @1 now 1", "2 send @1 %1 1.1", f"2 wire 1 {ONE.hex()}", "3 off 1",
        "3 arrive @2 %1", "4 tick @2 now 1", "end", "",
    ]


def test_logs_that_wait_for_each_other_still_become_one_run() -> None:
    two = Log("two.log", 2, 1, 0, [takes(ONE), step("take 1", "send @2 %1 1.1", sent=TWO)])
    one = Log("one.log", 1, 1, 0, [step(f"frame 1 {TWO.hex()}", "arrive @1 %1"), sends(1, ONE)])
    merged = Merged([one, two], matches([one, two], LINKS))
    assert (merged.events, merged.arrows) == (4, 1)


def test_the_ledger_stands_in_order_of_first_grants() -> None:
    found = logs([], [step("inject 5 00", "inject @2 2.1 bound 5"), step("inject 5 00", "inject @2 1.9 bound 5")])
    rows = ["1.9 granted 5 hops 0 evals 0 live 0 left 5", "2.1 granted 5 hops 0 evals 0 live 0 left 5"]
    text = Merged(found, {}).text(rows)
    assert text.endswith("\n".join(["ledger", rows[1], rows[0], "end", ""]))


def test_an_audit_is_read_as_far_as_it_is_wanted(tmp_path: Path) -> None:
    file = tmp_path / "fleet.audit"
    file.write_text("planet audit 1\n# both\nlog one.log\n\nlog two.log\nlink 1 1 2 1\n")
    audit = read_audit(str(file))
    assert (audit.logs, audit.links) == (["one.log", "two.log"], LINKS)
    file.write_text("planet audit 1\nlog\n")
    with pytest.raises(Refused, match="line 2"):
        read_audit(str(file))


def test_a_trace_cannot_end_the_data_that_holds_it() -> None:
    trace = 'planet trace 1\n1 print @1 "</script><script>alert(1)</script>"\nend\n'
    text = page.page_text("<b>.trace", trace)
    assert text.count("</script>") == 2
    held = re.search(r'<script type="application/json" id="trace">(.*?)</script>', text, re.S)
    assert held and json.loads(held[1]) == {"name": "<b>.trace", "text": trace}


def test_the_page_runs_its_own_script_alone() -> None:
    text = page.page_text()
    script = re.search(r'<script type="module">(.*?)</script>', text, re.S)
    assert script
    digest = base64.b64encode(hashlib.sha256(script[1].encode()).digest()).decode()
    assert f"default-src 'none'; script-src 'sha256-{digest}'" in text
    assert "import " not in re.sub(r"//.*|/\*.*?\*/", "", script[1]) and "src=" not in text.replace('"<img src', "")


def test_what_is_made_is_what_stands_there() -> None:
    for path, text in page.made_files().items():
        assert path.read_text("utf-8") == text, f"tools/explore --make makes {path.name} anew"


@pytest.mark.parametrize("text, told", [
    ("", "the file is empty"),
    ("planet schedule 1\n", "make that with: planet replay"),
    ("planet log 2\n", "make that with: planet replay"),
    ("hello\n", "no trace: its first line isn't 'planet trace 1'"),
])
def test_what_is_no_trace_is_refused(text: str, told: str, tmp_path: Path, capsys: pytest.CaptureFixture[str]) -> None:
    file = tmp_path / "it.trace"
    file.write_text(text)
    assert main([str(file)]) == 2
    said = capsys.readouterr().err
    assert said.startswith("explore: ") and told in said and said.count("\n") == 1
    assert list(tmp_path.iterdir()) == [file]


def test_a_trace_of_more_bytes_than_the_page_reads_is_refused(
    tmp_path: Path, capsys: pytest.CaptureFixture[str], monkeypatch: pytest.MonkeyPatch
) -> None:
    monkeypatch.setattr("planet_tools.explore.main.LONGEST", 1 << 20)
    file = tmp_path / "it.trace"
    file.write_text('planet trace 1\n1 print @1 "' + "é" * (1 << 19) + '"\nend\n', "utf-8")
    assert main([str(file)]) == 2
    assert capsys.readouterr().err == f"explore: more than 1 MB, {file}\n"


def test_a_page_stands_beside_its_trace(tmp_path: Path) -> None:
    file = tmp_path / "run.trace"
    file.write_text("planet trace 1\n1 nothing\nledger\nend\n")
    assert main([str(file)]) == 0
    assert '"name": "run.trace"' in (tmp_path / "run.html").read_text("utf-8")
    assert sorted(it.name for it in tmp_path.iterdir()) == ["run.html", "run.trace"]


def test_a_folder_that_is_not_there_is_told(tmp_path: Path, capsys: pytest.CaptureFixture[str]) -> None:
    file = tmp_path / "run.trace"
    file.write_text("planet trace 1\nend\n")
    assert main([str(file), str(tmp_path / "none" / "out.html")]) == 2
    assert "can't be written (No such file or directory)" in capsys.readouterr().err
