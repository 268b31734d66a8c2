// The balance of a family: its counts as numbers, and as areas on top of each other over time.
import { html, refill, svg } from "./dom.js";

const PARTS = ["hops", "evals", "live", "left", "gone"];
const NAMES = { gone: "sent outside", entered: "came in" };
const [TOP, BOTTOM, AXIS_DIGIT] = [8, 20, 6.6];

/** The corners of each part's area. Between events nothing changes, so an edge goes level and then up. */
function edges(history, x, y, behind) {
  const below = history.map(() => 0);
  const areas = [];
  for (const part of PARTS) {
    const above = history.map((row, place) => below[place] + row[part]);
    const upper = [];
    const lower = [];
    history.forEach((row, place) => {
      const next = place + 1 < history.length ? x(history[place + 1].event) : x(behind);
      upper.push(`${x(row.event)},${y(above[place])}`, `${next},${y(above[place])}`);
      lower.push(`${x(row.event)},${y(below[place])}`, `${next},${y(below[place])}`);
    });
    areas.push({ part, corners: [...upper, ...lower.reverse()].join(" "), isEmpty: history.every((row) => row[part] === 0) });
    above.forEach((value, place) => {
      below[place] = value;
    });
  }
  return areas;
}

/** At most one row a pixel: the last of those that fall together. */
function thinned(history, x) {
  return history.filter((row, place) => place + 1 === history.length || Math.floor(x(row.event)) !== Math.floor(x(history[place + 1].event)));
}

/** Areas have patterns besides their colours. */
function patterns() {
  const lines = { hops: "M0 6 6 0", evals: "M3 0V6", live: "", left: "M0 3H6", gone: "M0 0 6 6M0 6 6 0" };
  return svg("defs", {}, ...PARTS.map((part) =>
    svg("pattern", { id: `area-${part}`, class: `area-${part}`, width: 6, height: 6, patternUnits: "userSpaceOnUse" },
      svg("rect", { width: 6, height: 6 }), svg("path", { d: lines[part] || "M3 3h.01" }))));
}

function key(part) {
  return svg("svg", { class: "key", width: 16, height: 12, "aria-hidden": "true" }, svg("rect", { width: 16, height: 12, fill: `url(#area-${part})` }));
}

export class Balance {
  constructor(numbers, box, go) {
    [this.numbers, this.box, this.go] = [numbers, box, go];
    this.family = -1;
    new ResizeObserver(() => this.draw()).observe(box);
  }

  show(run, family, event) {
    const isOther = this.run !== run || this.family !== family;
    [this.run, this.family, this.event] = [run, family, event];
    if (isOther) this.draw();
    else this.moveCursor();
    this.showNumbers();
  }

  showNumbers() {
    if (this.family < 0) {
      refill(this.numbers);
      return;
    }
    const counts = this.run.accounts.after(this.family, this.event);
    const row = (name, value, ...sign) => html("div", {}, html("dt", {}, ...sign, NAMES[name] ?? name), html("dd", {}, String(value)));
    const shown = PARTS.filter((part) => part !== "gone" || this.run.isOpen);
    const came = this.run.isOpen ? [row("entered", counts.entered)] : [];
    refill(this.numbers, row("granted", counts.granted), ...came, ...shown.map((part) => row(part, counts[part], key(part))));
  }

  draw() {
    const [width, height] = [this.box.clientWidth, this.box.clientHeight];
    if (!this.run || this.family < 0 || width < 80 || height < 50) {
      refill(this.box);
      return;
    }
    const whole = this.run.accounts.history(this.family);
    const first = whole[0]?.event ?? 0;
    const last = Math.min(this.run.eventCount, (whole.at(-1)?.event ?? 0) + 1);
    const most = whole.reduce((top, it) => Math.max(top, it.granted + it.entered), 1);
    const left = Math.max(44, Math.ceil(String(most).length * AXIS_DIGIT) + 8);
    this.x = (event) => left + ((width - left - 8) * Math.max(0, Math.min(1, (event - first) / Math.max(1, last - first))));
    this.range = { first, last, left, width };
    const y = (value) => height - BOTTOM - ((height - TOP - BOTTOM) * value) / most;
    const areas = edges(thinned(whole, this.x), this.x, y, last).filter((area) => !area.isEmpty);
    const label = (text, at) => svg("text", { class: "axis", ...at }, text);
    this.cursor = svg("line", { class: "cursor", y1: TOP - 4, y2: height - BOTTOM + 4 });
    this.picture = svg("svg", { class: "areas", viewBox: `0 0 ${width} ${height}`, role: "img", "aria-label": "The balance over time" }, patterns(),
      ...areas.map(({ part, corners }) => svg("polygon", { points: corners, fill: `url(#area-${part})` }, svg("title", {}, NAMES[part] ?? part))),
      label(String(most), { x: left - 5, y: TOP + 6, "text-anchor": "end" }), label("0", { x: left - 5, y: height - BOTTOM, "text-anchor": "end" }),
      label(`event ${this.run.number(first)}`, { x: left, y: height - 5 }),
      label(String(this.run.number(Math.min(last, this.run.eventCount - 1))), { x: width - 8, y: height - 5, "text-anchor": "end" }), this.cursor);
    this.picture.addEventListener("click", (press) => this.clicked(press));
    refill(this.box, this.picture);
    this.moveCursor();
  }

  moveCursor() {
    if (!this.cursor || this.family < 0) return;
    const at = this.x(this.event + 0.5);
    this.cursor.setAttribute("x1", at);
    this.cursor.setAttribute("x2", at);
  }

  clicked(press) {
    const { first, last, left, width } = this.range;
    const part = (press.clientX - this.picture.getBoundingClientRect().left - left) / (width - left - 8);
    this.go(Math.max(0, Math.min(this.run.eventCount - 1, Math.floor(first + part * (last - first)))));
  }
}
