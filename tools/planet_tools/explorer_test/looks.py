"""What a person would see wrong: texts that are cut or lie over each other, and controls without a name."""
from __future__ import annotations

from pathlib import Path
from typing import List

from planet_tools.explorer_test.browser import Browser
from planet_tools.explorer_test.checks import same

SIZES = ((1400, 900), (1000, 700), (420, 800))
# the greatest numbers of hosts, serials and bounds
WIDEST = """planet trace 1
1 tick @4294967295 now 18446744073
2 inject @4294967295 4294967295.9007199254740991 bound 4294967295
2 value @4294967295 4294967295.9007199254740991 () evals 0 left 2147483647
2 queue @4294967295 %1 4294967295.9007199254740991 bound 2147483647
3 send @4294967295 %1 4294967295.9007199254740991
3 wire 1
4 off 1
4 arrive @1234567890 %2
4 queue @1234567890 %8 4294967295.9007199254740991 bound 2147483646
ledger
4294967295.9007199254740991 granted 4294967295 hops 2 evals 0 live 2147483646 left 2147483647
end
"""
BOXES = """
const box = (it) => it.getBoundingClientRect();
const all = (query) => [...document.querySelectorAll(query)].filter((it) => it.getClientRects().length > 0);
const meet = (one, other) => one.left + 1 < other.right && other.left + 1 < one.right
  && one.top + 1 < other.bottom && other.top + 1 < one.bottom;
const within = (it, room) => it.left >= room.left - 1 && it.right <= room.right + 1
  && it.top >= room.top - 1 && it.bottom <= room.bottom + 1;
"""
CUT = BOXES + """
const cut = all(".host").flatMap((host) => [...host.querySelectorAll("text")]
  .filter((text) => text.textContent !== "" && !within(box(text), box(host.querySelector("rect")))));
const ledger = box(document.getElementById("ledger-panel"));
const numbers = all("#ledger-head span, #ledger .number");
cut.push(...numbers.filter((it) => it.scrollWidth > it.clientWidth + 1 || !(box(it).right <= ledger.right)));
const rows = all("header *, .bar *, #time *, #numbers *");
cut.push(...rows.filter((it) => box(it).left < -1 || box(it).right > innerWidth + 1));
const axis = all("#areas text").filter((it) => box(it).left < box(document.getElementById("areas")).left);
return [...cut, ...axis].map((it) => it.textContent);
"""
OVER = BOXES + """
const others = all("text.device, .host rect, .signs .sign, .mark path");
const owner = (it) => it.closest(".host")?.getAttribute("aria-label") ?? `frame ${it.closest(".mark")?.dataset.frame}`;
const name = (it) => it.textContent || owner(it);
const found = [];
for (const one of all("text.device")) {
  for (const other of others) {
    if (other !== one && meet(box(one), box(other))) found.push(`${name(one)} and ${name(other)}`);
  }
}
const written = (it) => {
  const range = document.createRange();
  range.selectNodeContents(it);
  return box(range);
};
const spans = all("#ledger-head span, #ledger .row:first-child .number");
spans.forEach((one, place) => spans.slice(0, place).forEach((other) => {
  if (meet(written(one), written(other))) found.push(`${name(one)} and ${name(other)}`);
}));
return found;
"""
NAMELESS = """
const controls = document.querySelectorAll("button, input:not([type=file]), select, [tabindex], [role]");
const name = (it) => it.getAttribute("aria-label") || it.labels?.[0]?.textContent.trim() || it.textContent.trim();
const isLive = (it) => ["status", "alert"].includes(it.getAttribute("role"));
const bare = [...controls].filter((it) => !isLive(it) && !name(it));
const divs = [...document.querySelectorAll("div[aria-label], div[tabindex]")];
const roleless = divs.filter((it) => !it.getAttribute("role"));
return [...bare, ...roleless].map((it) => it.outerHTML.slice(0, 80));
"""


def check_looks(browser: Browser, trace: Path, keys: List[str]) -> None:
    """Nothing is cut and no names lie over each other, at each event that the keys lead to, in each size."""
    for width, height in SIZES:
        browser.size(width, height)
        browser.scheme("light")
        browser.open()
        browser.load(trace)
        browser.press("a", "t")
        for key in ["Home", *keys]:
            browser.press(key)
            what = f"{trace.name} at {width}, {browser.shown()['now']}"
            same(f"{what}: texts that are cut", browser.run(CUT), [])
            same(f"{what}: names over each other", browser.run(OVER), [])
    same(f"{trace.name}: controls without a name, or names without a role", browser.run(NAMELESS), [])
