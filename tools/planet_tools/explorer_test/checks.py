"""What is tried of the explorer in a browser. A check raises a Wrong that says what isn't so."""
from __future__ import annotations

import re
from pathlib import Path
from typing import Any, Dict, List, Sequence

from planet_tools.explorer_test.browser import Browser
from planet_tools.explorer_test.reckoning import State, ledger_rows, states

TEXT_MOST = 600
# what a printed value may not do, as text and as markup
HOSTILE = "<script>document.title='taken'</script><img src=x onerror=\"document.title='taken'\"></script>&lt;b&gt;"


TEXTS = "return [...document.querySelectorAll(arguments[0])].map((it) => it.textContent)"

OVERLAP = """
const boxes = [...document.querySelectorAll(".host rect")].map((it) => it.getBoundingClientRect());
const room = document.getElementById("network").getBoundingClientRect();
const apart = (one, other) => one.left >= other.right || one.right <= other.left
  || one.top >= other.bottom || one.bottom <= other.top;
const within = (it) => it.left >= room.left && it.right <= room.right && it.top >= room.top && it.bottom <= room.bottom;
let found = 0;
boxes.forEach((one, place) => boxes.slice(0, place).forEach((other) => { found += apart(one, other) ? 0 : 1; }));
return [found, boxes.filter((it) => !within(it)).length];
"""

DROP = """
const drag = new DataTransfer();
for (const [name, text] of arguments[0]) drag.items.add(new File([text], name));
document.dispatchEvent(new DragEvent("drop", {dataTransfer: drag, bubbles: true, cancelable: true}));
return new Promise((done) => setTimeout(done, 300));
"""


class Wrong(Exception):
    """What isn't as wanted."""


def same(what: str, found: object, wanted: object) -> None:
    """Compares what is shown with what must be."""
    if found != wanted:
        raise Wrong(f"{what}: {str(found)[:300]} in place of {str(wanted)[:300]}")


def with_counts(rows: Dict[str, List[int]]) -> Dict[str, List[int]]:
    """The rows of a ledger that have any count: a family that comes later has none."""
    return {family: row for family, row in rows.items() if any(row)}


def is_shown(shown: Dict[str, Any], state: State, what: str) -> None:
    """Compares all that the page shows after an event with the state."""
    queued, wire = state.queued_words(), state.wire_words()
    same(f"{what}: queues", shown["queued"], queued or ["nothing"])
    same(f"{what}: wire", shown["wired"], wire or ["nothing"])
    found = {it[0]: [int(number) for number in it[1:]] for it in shown["rows"]}
    wanted = {family: state.row(family) for family in state.counts}
    same(f"{what}: balances", with_counts(found), with_counts(wanted))
    lines = [line[: TEXT_MOST + line.index(" ") - len(str(state.event))] for line in state.lines]
    same(f"{what}: lines that are marked", shown["lines"], lines[: len(shown["lines"])])
    same(f"{what}: one line at least is marked", bool(shown["lines"]), True)
    hidden = sum(int(text[1:]) for text in shown["counts"])
    marks = shown["marks"]
    same(f"{what}: marks", sum(marks.values()) + hidden, sum(len(it) for it in state.queues.values()) + len(state.wire))
    on_wire = set(state.wire)
    if hidden == 0:
        same(f"{what}: copies", marks.get("copy", 0), len(on_wire & state.handed))
        same(f"{what}: marks in queues", marks.get("queued", 0), sum(len(it) for it in state.queues.values()))


def check_steps(browser: Browser, trace: Path) -> int:
    """Steps through all events of a trace, on and back, and compares what is shown. Answers how many there were."""
    browser.size(1500, 2400)
    browser.open()
    browser.load(trace)
    browser.press("Escape", "a", "t", "Home")
    browser.click("#as-words")
    text, steps = trace.read_text("utf-8"), 0
    for state in states(text):
        browser.press("ArrowRight")
        shown = browser.shown()
        what = f"{trace.name} event {state.event}"
        same(f"{what}: its number", shown["now"].split(" ")[1], str(state.event))
        is_shown(shown, state, what)
        steps += 1
    rows = ledger_rows(text)
    last = {it[0]: [int(number) for number in it[1:]] for it in browser.shown()["rows"]}
    same(f"{trace.name}: the ledger at the end", last, {family: rows[family] for family in last})
    check_back(browser, text, trace.name)
    return steps


def check_back(browser: Browser, text: str, name: str) -> None:
    """Goes back to the beginning; half way the state is that of the middle."""
    count = sum(1 for _ in states(text))
    browser.press(*["ArrowLeft"] * (count - (count + 1) // 2))
    for place, state in enumerate(states(text), 1):
        if place == (count + 1) // 2:
            is_shown(browser.shown(), state, f"{name} back at event {state.event}")
    browser.press(*["ArrowLeft"] * count)
    shown = browser.shown()
    same(f"{name}: before the first event", shown["now"].split(" ")[0], "before")
    same(f"{name}: before the first event", shown["queued"] + shown["wired"], ["nothing", "nothing"])


def check_ledger(browser: Browser, name: str, trace: Path) -> None:
    """Loads a trace: the page finds that its ledger is the trace's, and so does the reckoning here."""
    browser.load(trace)
    shown = browser.shown()
    text = trace.read_text("utf-8")
    rows = ledger_rows(text)
    families = f"{len(rows)} {'family' if len(rows) == 1 else 'families'}"
    same(f"{name}: verdict", shown["verdict"], f"the ledger of {families} is what the lines make")
    same(f"{name}: fault", shown["fault"], "")
    last = State()
    for last in states(text):
        pass
    same(f"{name}: the ledger reckoned here", {family: last.row(family) for family in rows}, rows)


def check_wrong_ledgers(browser: Browser, trace: Path, room: Path) -> None:
    """A ledger that isn't that of the lines is told: another number, a row too many, one that is missing."""
    text = trace.read_text("utf-8")
    head, rows = text.split("\nledger\n")
    row = rows.split("\n")[0]
    for name, changed in {
        "number": text.replace("left 6", "left 7").replace("live 0 left 7", "live 0 left 5"),
        "row": text.replace(row, row + "\n" + row.replace("1.1", "1.2")),
        "missing": head + "\nledger\nend\n",
        "again": text.replace(row, row + "\n" + row),
    }.items():
        file = room / f"wrong-{name}.trace"
        file.write_text(changed, "utf-8")
        browser.load(file)
        verdict = browser.shown()["verdict"]
        same(f"a ledger with a wrong {name}", verdict.startswith("the ledger isn't what the lines make: "), True)
        same(f"a ledger with a wrong {name}", browser.shown()["judged"], "bad")


def bad_inputs(trace: str) -> Dict[str, Any]:
    """Files that are no traces, each with the words of its refusal, and what stands before a bad line."""
    lines = trace.split("\n")
    broken = lines[:11] + ["8 off three"] + lines[12:]
    backwards = lines[:11] + ["2 nothing"] + lines[12:]
    return {
        "empty": (b"", "is refused: the file is empty", None),
        "other": (b"hello\n", "is refused: this is no trace: its first line isn't \"planet trace 1\"", None),
        "schedule": (b"planet schedule 1\nhost 1\nevents\n", "make that with: ./planet replay FILE", None),
        "log": (b"planet log 1\nhost 1\n", "make that with: ./planet replay FILE", None),
        "audit": (b"planet audit 1\nlog a\n", "make a page of its fleet with: tools/explore FILE", None),
        "image": (b"\x89PNG\r\n\x1a\n\x00\xff", "its first line isn't UTF-8", None),
        "long": (b"planet trace 1\n" + b"1 nothing\n" * 6_800_000, "more than 64 MB", None),
        "bad-line": ("\n".join(broken).encode(), "line 12 is no line that a trace has there: 8 off three", 4),
        "order": ("\n".join(backwards).encode(), "line 12 is no line that a trace has there: 2 nothing", 4),
        "no-utf8": ("\n".join(lines[:11]).encode() + b"\n5 print @1 \"\xff\"\nend\n", "line 12 isn't UTF-8", 4),
        "cut": ("\n".join(lines[:11]).encode() + b"\n", "line 12 is missing", 4),
        "behind": (trace.encode() + b"14 nothing\n", f"line {len(lines)} is no line", 14),
    }


def check_bad_inputs(browser: Browser, trace: Path, room: Path) -> int:
    """Each bad input is refused in words. What stands before a bad line is shown; else the last trace stays."""
    cases = bad_inputs(trace.read_text("utf-8"))
    for name, (content, words, last) in cases.items():
        file = room / f"{name}.trace"
        file.write_bytes(content)
        browser.open()
        browser.load(trace)
        browser.load(file)
        shown = browser.shown()
        if words not in shown["fault"]:
            raise Wrong(f"{name}: {shown['fault']!r} doesn't say {words!r}")
        browser.press("End")
        shown = browser.shown()
        same(f"{name}: the last event", shown["now"].split(" ")[-1], str(last or 14))
        same(f"{name}: the ledger", shown["judged"], "good" if last in (None, 14) else "open")
        file.unlink()
    return len(cases)


def check_drop(browser: Browser, trace: Path) -> None:
    """A trace that is dropped on the page is shown; two at once are refused in words."""
    browser.open()
    browser.run(DROP, [["dropped.trace", trace.read_text("utf-8")]])
    same("a dropped trace", browser.shown()["now"], "event 1 of 14")
    browser.run(DROP, [["one.trace", "planet trace 1\nend\n"], ["two.trace", "planet trace 1\nend\n"]])
    same("two dropped files", "one trace at a time" in browser.shown()["fault"], True)
    same("what was open", browser.shown()["now"], "event 1 of 14")


def check_harmless(browser: Browser, room: Path) -> None:
    """What packets print and raise, and the name of a file, are text."""
    head = "planet trace 1\n1 inject @1 1.1 bound 5\n"
    file = room / "<img src=x onerror=alert(1)>.trace"
    file.write_text(
        f'{head}1 print @1 "{HOSTILE}"\n1 port @1 7 "{HOSTILE}"\n1 value @1 1.1 "{HOSTILE}" evals 0 left 5\n'
        "ledger\n1.1 granted 5 hops 0 evals 0 live 0 left 5\nend\n", "utf-8")
    browser.open()
    before = browser.run("return document.querySelectorAll('script').length")
    browser.load(file)
    browser.press("End")
    browser.click("#tree .row")
    same("elements of a printed text", browser.run(TEXTS, "img, b:not(.row b)"), [])
    same("scripts of a printed text", browser.run("return document.querySelectorAll('script').length"), before)
    same("the title", browser.run("return document.title"), f"{file.name} – planet explorer")
    texts = [it for it in browser.run(TEXTS, "#packet .value") if "<" in it]
    same("the texts that are shown", texts, [f'"{HOSTILE}"'] * 3)


def check_selection(browser: Browser, trace: Path) -> None:
    """Filters, keys, links and choices lead to where they say."""
    browser.size(1400, 900)
    browser.open(fragment="#e=8")
    browser.load(trace)
    same("the event of the address", now_of(browser), "8")
    browser.run("location.hash = '#e=10'; return new Promise((done) => setTimeout(done, 50))")
    same("an address that changes", now_of(browser), "10")
    browser.press("Home", "n")
    same("the next event without adverts and ticks", now_of(browser), "6")
    browser.set_value("host", "3")
    browser.press("n")
    same("the next event of host 3", now_of(browser), "10")
    browser.press("n", "p")
    same("the one before", now_of(browser), "10")
    same("lines of host 3", lines_of(browser), "5 of 38 lines")
    browser.press("Escape")
    browser.set_value("text", "Success")
    same("lines with a text", lines_of(browser), "1 of 38 lines")
    browser.press("n")
    same("the event that prints", now_of(browser), "14")
    browser.press("Escape")
    browser.set_value("kind", "queue")
    same("lines of a kind", lines_of(browser), "4 of 38 lines")
    browser.press("Escape")
    browser.set_value("family", "1.2")
    same("lines of a family that isn't there", lines_of(browser), "0 of 38 lines")
    browser.press("Escape", "Home", "1", " ")
    same("play", browser.run(TEXTS, "#play")[0], "pause")
    browser.press("3")
    browser.run("return new Promise((done) => setTimeout(done, 1500))")
    same("the end of playing", [now_of(browser), browser.run(TEXTS, "#play")[0]], ["14", "play"])
    browser.press("Home", "1")
    browser.run("document.getElementById('slider').focus()")
    browser.press(" ")
    same("play by a key on the slider", browser.run(TEXTS, "#play")[0], "pause")
    browser.press(" ")
    same("pause by a key on the slider", browser.run(TEXTS, "#play")[0], "play")
    browser.run("document.activeElement.blur()")
    check_packet(browser)


def now_of(browser: Browser) -> str:
    """The number of the event that is shown."""
    return str(browser.shown()["now"].split(" ")[1])


def lines_of(browser: Browser) -> str:
    """How many lines pass the filters."""
    return str(browser.run(TEXTS, "#line-count")[0])


def check_packet(browser: Browser) -> None:
    """A packet that is chosen by keys shows its way."""
    browser.press("Home")
    browser.run("document.getElementById('tree').focus()")
    browser.press("ArrowDown", "ArrowDown", "Enter")
    same("the packet", browser.run(TEXTS, "#packet-title")[0], "Packet 1.1 #2")
    steps = browser.run(TEXTS, ".steps li")
    same("its way", steps, [
        "6sent by a visit at @1, bound 9", "6queued @1 %1, bound 9", "7on the wire as frame 3, @1 → @2",
        "8arrived at @2 %1",
        "8queued @2 %2, bound 8", "9on the wire as frame 4, @2 → @3", "10arrived at @3 %1", "10value () at @3",
    ])
    browser.run("document.activeElement.blur()")


def check_labels(browser: Browser, traces: Sequence[Path]) -> None:
    """The names of hosts don't lie over each other, in wide and in narrow pages."""
    for trace in traces:
        for width, height in ((1400, 900), (1000, 700), (420, 800)):
            browser.size(width, height)
            browser.open()
            browser.load(trace)
            found = browser.run(OVERLAP)
            same(f"{trace.name} at {width}: names over each other, or outside", found, [0, 0])


def check_code(folder: Path) -> None:
    """No text becomes markup or a script, and nothing is asked for elsewhere."""
    bad = re.compile(r"(?:inner|outer)HTML|insertAdjacent|document\.write|\beval\(|new Function|fetch\(|https?:")
    for file in sorted(folder.glob("*")):
        if file.suffix in (".js", ".html", ".css"):
            found = bad.findall(file.read_text("utf-8").replace("http://www.w3.org/2000/svg", ""))
            same(f"{file.name}: ways to make markup of text, or to ask elsewhere", found, [])
