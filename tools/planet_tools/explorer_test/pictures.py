"""Pictures of the page for its documentation."""
from __future__ import annotations

from pathlib import Path

from planet_tools.explorer_test.browser import Browser

WIDE, NARROW = (1280, 820), (420, 820)


def take_ping(browser: Browser, ping: Path, folder: Path) -> None:
    """Takes the ping: light and dark, wide and narrow."""
    folder.mkdir(parents=True, exist_ok=True)
    browser.size(*WIDE)
    browser.open(fragment="#e=11")
    browser.load(ping)
    for scheme in ("light", "dark"):
        browser.picture(folder / f"explorer-{scheme}.png", *WIDE, scheme)
    browser.picture(folder / "explorer-narrow.png", *NARROW, "light")


def take_fleet(browser: Browser, page: Path, trace: Path, folder: Path) -> None:
    """Takes a live fleet at the event at which the first ping is on its way."""
    lines = trace.read_text("utf-8").split("\n")
    sent = [line.split(" ")[0] for line in lines if " send " in line and not line.endswith("advert")]
    browser.size(*WIDE)
    browser.open(page, f"#e={sent[1]}")
    browser.picture(folder / "explorer-fleet.png", *WIDE, "light")
