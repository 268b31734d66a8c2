"""Lines of traces and logs become objects and back, by the one table; the check of the table sees what is otherwise."""
from __future__ import annotations

import re
from pathlib import Path

import pytest

from planet_tools.trace import definitions, forms
from planet_tools.trace.forms import LOG, TRACE, Line

CRATES = Path(__file__).resolve().parents[3] / "crates"
TRACE_LINES: list[tuple[str, Line]] = [
    ("planet trace 1", {"kind": "trace"}),
    ("1 inject @1 1.1 bound 5", {"kind": "inject", "event": 1, "host": 1, "family": "1.1", "bound": 5}),
    ("4 arrive @1 %2", {"kind": "arrive", "event": 4, "host": 1, "device": 2}),
    ("4 arrive @1 control", {"kind": "arrive_control", "event": 4, "host": 1}),
    ('3 print @2 "a evals 1 left 2"', {"kind": "print", "event": 3, "host": 2, "value": '"a evals 1 left 2"'}),
    ("3 port @2 7 [:int]", {"kind": "port", "event": 3, "host": 2, "port": 7, "value": "[:int]"}),
    (
        '3 value @2 1.1 " evals 7 left 8" evals 0 left 1',
        {"kind": "value", "event": 3, "host": 2, "family": "1.1", "value": '" evals 7 left 8"', "evals": 0, "left": 1},
    ),
    (
        "3 raised @2 1.1 NoBound evals 0 left 1",
        {"kind": "raised", "event": 3, "host": 2, "family": "1.1", "exception": "NoBound", "evals": 0, "left": 1},
    ),
    ("9 drop @1 QueueFull advert", {"kind": "drop_advert", "event": 9, "host": 1, "reason": "QueueFull"}),
    (
        "9 drop @1 BadFrame OverLimit depth 33",
        {
            "kind": "drop_bytes", "event": 9, "host": 1, "reason": "BadFrame", "fault": "OverLimit", "limit": "depth",
            "at": 33,
        },
    ),
    (
        "9 drop @1 BadFrame IllTyped Argument 0",
        {
            "kind": "drop_bytes", "event": 9, "host": 1, "reason": "BadFrame", "fault": "IllTyped", "part": "Argument",
            "argument": 0,
        },
    ),
    ("2 wire 1", {"kind": "wire", "event": 2, "frame": 1}),
    ("2 wire 1 504c", {"kind": "wire", "event": 2, "frame": 1, "hex": "504c"}),
    (
        "1.18446744073709551615 granted 5 hops 1 evals 0 live 0 left 4",
        {
            "kind": "row", "family": "1.18446744073709551615", "granted": 5, "hops": 1, "evals": 0, "live": 0,
            "left": 4,
        },
    ),
]
LOG_LINES: list[tuple[str, Line]] = [
    ("planet log 2", {"kind": "log", "version": 2}),
    ("hosts 1 2 4294967295", {"kind": "hosts", "hosts": [1, 2, 4294967295]}),
    ("inject 5 00FF handler h", {"kind": "inject", "bound": 5, "hex": "00FF", "handler": "h"}),
    ("", {"kind": "empty"}),
    ("# said  of it ", {"kind": "comment", "text": " said  of it "}),
]
NO_LINES = [
    "", " ", "planet trace 2", "01 tick @1 now 2", "1  tick @1 now 2", "1 tick @1 now 2 ", "1 tick 1 now 2", "1 tick",
    "1 drop @1 BadFrame", "1 drop @1 Lazy 1.1 bound 2", "1 wire 1 abc", "1 wire 100000000000000000000000",
    "1.1 granted 5 hops 1 evals 0 live 0", "ledger ", "1 print @1 ", "1 inject @1 1.1 bound -1", "\u0661 nothing",
]


@pytest.mark.parametrize("text, line", TRACE_LINES)
def test_a_line_of_a_trace_is_an_object_and_back(text: str, line: Line) -> None:
    assert TRACE.read(text) == line
    assert TRACE.write(line) == text


@pytest.mark.parametrize("text, line", LOG_LINES)
def test_a_line_of_a_log_is_an_object_and_back(text: str, line: Line) -> None:
    assert LOG.read(text) == line
    assert LOG.write(line) == text


@pytest.mark.parametrize("text", NO_LINES)
def test_other_lines_are_none(text: str) -> None:
    assert TRACE.read(text) is None


@pytest.mark.parametrize(
    "line",
    [
        {}, {"kind": "wire"}, {"kind": "wire", "event": 1, "frame": True}, {"kind": "wire", "event": 1, "frame": "1"},
        {"kind": "wire", "event": 1, "frame": -1}, {"kind": "nothing", "event": 1, "more": 1}, {"kind": "none"},
        {"kind": "print", "event": 1, "host": 1, "value": "a\nb"},
    ],
)
def test_other_objects_have_no_line(line: Line) -> None:
    assert TRACE.write(line) is None


def test_a_line_is_read_by_one_form_alone() -> None:
    for lines in (TRACE, LOG):
        for text, _ in TRACE_LINES + LOG_LINES:
            kinds = [form for form in lines.forms if re.fullmatch(form.pattern, text)]
            assert len(kinds) <= 1, text


def test_the_table_is_what_the_definitions_give() -> None:
    assert list(definitions.differences(CRATES)) == []


def test_a_form_too_few_or_too_many_is_seen(monkeypatch: pytest.MonkeyPatch) -> None:
    table = forms.forms_of()
    left = [form for form in table["trace"] if form.kind != "spent"]
    more = [forms.form_of({"part": "end", "kind": "bye", "line": "bye", "meaning": ""}, {})]
    monkeypatch.setattr(definitions, "forms_of", lambda: {"trace": left + more, "log": table["log"]})
    assert list(definitions.differences(CRATES)) == [
        "the definitions of a trace give a line that the table lacks: "
        "{number} spent @{number} {number}.{number} left {number}",
        "the table has a line of a trace that no definition gives: bye",
    ]


def test_definitions_are_read_by_cases_conditions_and_lists(tmp_path: Path) -> None:
    specs = tmp_path / "some_crate" / "specs"
    specs.mkdir(parents=True)
    (specs / "Words.antt").write_text(
        'unfoldable pub word_of : Kind → List ℕ\nword_of One = codes "one"\n'
        'word_of (Two n) = codes "two " ++ decimal n\n'
    )
    (specs / "Texts.antt").write_text(
        "use Rattle.some_crate.specs.Words.{word_of as word}\n"
        "abbrev pub closing : List (List ℕ) → List ℕ\nclosing [] = 10 ∷ []\nclosing (w ∷ ws) = 32 ∷ w ++ closing ws\n"
        "pub log_text : Bool → Kind → List ℕ\n"
        'log_text b k = (if b then codes "yes" else word k)\n'
        '  ++ closing (codes "end" ∷ map (λ h. decimal h.0) k)\n'
    )
    wanted = {"yes end {numbers}", "one end {numbers}", "two {number} end {numbers}"}
    try:
        assert definitions.written_lines(tmp_path, "log") == wanted
    except definitions.Unread as fault:
        pytest.fail(str(fault))


def test_a_definition_that_is_not_there_is_named(tmp_path: Path) -> None:
    with pytest.raises(definitions.Unread, match="log_text is defined 0 times"):
        definitions.written_lines(tmp_path, "log")
