"""How long a trace of 50,000 events takes to open, how long a step takes, and how much memory the page holds."""
from __future__ import annotations

from pathlib import Path
from typing import Callable, Optional, Tuple, TypeVar

from planet_tools.explore.page import page_text
from planet_tools.explorer_test.browser import Browser
from planet_tools.explorer_test.checks import Wrong, same

TIMES = 5
OPEN_MOST, STEP_MOST, MEMORY_MOST = 2_000.0, 50.0, 300_000_000
PLACES = (0, 12_345, 25_000, 37_777, 49_990)
# a step is over when the page was laid out and painted
STEP = """
const [event, times] = arguments;
const painted = () => new Promise((done) => requestAnimationFrame(() => setTimeout(done)));
const press = (key) => document.dispatchEvent(new KeyboardEvent("keydown", {key, bubbles: true}));
return (async () => {
  location.hash = `#e=${event}`;
  await painted();
  await new Promise((done) => setTimeout(done, 300));
  const found = [];
  for (let time = 0; time < times; time += 1) {
    const began = performance.now();
    press(time % 2 ? "ArrowLeft" : "ArrowRight");
    document.body.getBoundingClientRect();
    found.push(performance.now() - began);
    await painted();
  }
  return found;
})();
"""


Found = TypeVar("Found")


def in_new_browser(page: Path, work: Callable[[Browser, float], Found]) -> Found:
    """Opens the page in a browser of its own, and does the work there with the time that the opening took."""
    browser = Browser()
    try:
        browser.size(1400, 900)
        return work(browser, opened(browser, page))
    finally:
        browser.quit()


def step_time(browser: Browser) -> float:
    """The milliseconds of a step with adverts and ticks: the least of some at each place, and of these the most."""
    browser.press("a", "t")
    return max(min(map(float, browser.run(STEP, place, TIMES))) for place in PLACES)


def opened(browser: Browser, page: Path) -> float:
    """The milliseconds from the beginning of a page's opening to its first whole picture."""
    browser.open(page, "#e=25000")
    found = browser.run(
        "return new Promise((done) => requestAnimationFrame(() => setTimeout(() => done(performance.now()))))")
    same("the long trace", browser.shown()["now"], "event 25000 of 50000")
    return float(found)


def measured(trace: Path, room: Path) -> str:
    """Measures in browsers of their own, which held no other trace, and answers the figures as a text."""
    text = trace.read_text("utf-8")
    page = room / "long.html"
    page.write_text(page_text(trace.name, text), "utf-8")
    open_least = min(in_new_browser(page, lambda browser, time: time) for _ in range(TIMES))

    def steps(browser: Browser, _: float) -> Tuple[float, Optional[int]]:
        return step_time(browser), browser.page_bytes()

    step_most, memory = in_new_browser(page, steps)
    held = "memory not told" if memory is None else f"{memory / 1e6:.0f} MB"
    said = f"{len(text) / 1e6:.2f} MB of 50,000 events opened in {open_least:.0f} ms,"
    said = f"{said} a step in at most {step_most:.0f} ms, {held}"
    if len(text) < 4_000_000 or open_least > OPEN_MOST or step_most > STEP_MOST or (memory or 0) > MEMORY_MOST:
        raise Wrong(f"{said}: wanted are 4 MB, {OPEN_MOST:.0f} ms, {STEP_MOST:.0f} ms, {MEMORY_MOST / 1e6:.0f} MB")
    return said
