"""A headless Chromium in which the explorer is opened, and what it shows."""
from __future__ import annotations

import os
from pathlib import Path
from typing import Any, Dict, List, Optional

from selenium import webdriver
from selenium.webdriver.chrome.options import Options
from selenium.webdriver.chrome.service import Service
from selenium.webdriver.common.by import By
from selenium.webdriver.support.wait import WebDriverWait

CHROMIUM, DRIVER = "/usr/bin/chromium", "/usr/bin/chromedriver"
PAGE = Path(__file__).resolve().parents[2] / "explorer" / "explorer.html"
SECONDS = 60
SHOWN = """
const texts = (query) => [...document.querySelectorAll(query)].map((it) => it.textContent);
const rows = [...document.querySelectorAll("#ledger .row")].map((row) => [...row.children].map((it) => it.textContent));
const now = [...document.querySelectorAll("#lines .row.now")].sort((a, b) => a.dataset.place - b.dataset.place);
const states = {};
for (const mark of document.querySelectorAll(".mark[data-state]"))
  states[mark.dataset.state] = (states[mark.dataset.state] ?? 0) + 1;
return {
  now: document.getElementById("now").textContent, queued: texts("#queued li"), wired: texts("#wired li"), rows,
  lines: now.map((row) => row.querySelector(".event").textContent + " " + row.querySelector(".text").textContent),
  marks: states, counts: texts(".count"), verdict: document.getElementById("verdict").textContent,
  judged: document.getElementById("verdict").className,
  fault: document.getElementById("fault").hidden ? "" : document.getElementById("fault").textContent,
  numbers: Object.fromEntries([...document.querySelectorAll("#numbers > div")].map(
    (it) => [it.querySelector("dt").textContent.trim(), Number(it.querySelector("dd").textContent)])),
};
"""
PRESS = """
const target = document.activeElement === document.body ? document : document.activeElement;
for (const key of arguments[0]) target.dispatchEvent(new KeyboardEvent("keydown", {key, bubbles: true}));
"""


class Browser:
    """One browser with the explorer in it."""

    def __init__(self) -> None:
        options: Any = Options()
        options.binary_location = CHROMIUM
        for word in ("--headless=new", "--disable-gpu", "--enable-precise-memory-info", "--hide-scrollbars"):
            options.add_argument(word)
        if os.geteuid() == 0:
            options.add_argument("--no-sandbox")
        options.set_capability("goog:loggingPrefs", {"browser": "ALL"})
        self.driver: Any = webdriver.Chrome(service=Service(DRIVER), options=options)

    def quit(self) -> None:
        """Ends it."""
        self.driver.quit()

    def run(self, script: str, *arguments: object) -> Any:
        """Runs a script in the page."""
        return self.driver.execute_script(script, *arguments)

    def size(self, width: int, height: int) -> None:
        """Gives the page this room."""
        metrics = {"width": width, "height": height, "deviceScaleFactor": 1, "mobile": False}
        self.driver.execute_cdp_cmd("Emulation.setDeviceMetricsOverride", metrics)

    def scheme(self, name: str) -> None:
        """Light or dark, as the system would say."""
        wanted = {"prefers-color-scheme": name, "prefers-reduced-motion": "reduce"}
        features = [{"name": feature, "value": value} for feature, value in wanted.items()]
        self.driver.execute_cdp_cmd("Emulation.setEmulatedMedia", {"features": features})

    def open(self, page: Path = PAGE, fragment: str = "") -> None:
        """Opens a page from its file, anew."""
        self.driver.get("about:blank")
        self.driver.get(page.as_uri() + fragment)

    def load(self, trace: Path) -> None:
        """Hands a file to the open page by its chooser, and waits until it is shown or refused."""
        self.run("document.body.dataset.opened = ''; document.getElementById('fault').hidden = true;")
        self.driver.find_element(By.ID, "file").send_keys(str(trace))
        WebDriverWait(self.driver, SECONDS, 0.02).until(lambda _: self.is_settled())

    def is_settled(self) -> bool:
        """Whether a file was shown or refused."""
        return bool(self.run(
            "return document.body.dataset.opened !== '' || !document.getElementById('fault').hidden"))

    def press(self, *keys: str) -> None:
        """Presses keys, one after the other."""
        self.run(PRESS, list(keys))

    def shown(self) -> Dict[str, Any]:
        """What the page shows."""
        found: Dict[str, Any] = self.run(SHOWN)
        return found

    def set_value(self, name: str, value: str) -> None:
        """Types into a field or chooses in a list."""
        self.run(
            "const it = document.getElementById(arguments[0]); it.value = arguments[1];"
            "it.dispatchEvent(new Event('input')); it.dispatchEvent(new Event('change'));", name, value)

    def click(self, query: str) -> None:
        """Clicks the first element of a query."""
        self.run(
            "document.querySelector(arguments[0]).dispatchEvent(new MouseEvent('click', {bubbles: true}))", query)

    def complaints(self) -> List[str]:
        """What the page complained of since the last time."""
        return [str(it["message"]) for it in self.driver.get_log("browser") if it["level"] == "SEVERE"]

    def picture(self, name: Path, width: int, height: int, scheme: str = "light") -> None:
        """Writes a picture of what is in sight."""
        self.size(width, height)
        self.scheme(scheme)
        self.run("return new Promise((done) => requestAnimationFrame(() => setTimeout(done, 60)))")
        self.driver.save_screenshot(str(name))

    def page_bytes(self) -> Optional[int]:
        """The most memory that the process of the page held, or nothing where the system doesn't tell."""
        most = 0
        for status in Path("/proc").glob("[0-9]*/status"):
            try:
                words = (status.parent / "cmdline").read_bytes()
                if b"--type=renderer" in words and self.is_ours(status.parent):
                    line = next(it for it in status.read_text().split("\n") if it.startswith("VmHWM"))
                    most = max(most, int(line.split()[1]) * 1024)
            except (OSError, StopIteration):
                continue
        return most or None

    def is_ours(self, process: Path) -> bool:
        """Whether a process was started by this browser's driver, or by what that started."""
        driver = self.driver.service.process.pid
        while True:
            parent = int((process / "stat").read_text().rsplit(")", 1)[1].split()[1])
            if parent == driver:
                return True
            if parent <= 1:
                return False
            process = Path(f"/proc/{parent}")
