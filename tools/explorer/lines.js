// The lines of the trace: filters, and the list with the current event's lines marked.
import { colourOf, html, refill, say } from "./dom.js";
import { RowList } from "./rows.js";
import { signOf, wordOf } from "./signs.js";

const LINE_HEIGHT = 22;
const OF_ADVERTS = new Set(["advert", "heard", "send_advert", "drop_advert", "lost_advert"]);

/** Whether a line is one of an advert. */
export function isOfAdvert(run, place) {
  if (OF_ADVERTS.has(run.lineKinds[place])) return true;
  const frame = run.lineFrames.at(place);
  return frame >= 0 && run.frames[frame].packet < 0;
}

/** The places of the lines with a text in them, as marks by place. */
function withText(run, text) {
  const marks = new Uint8Array(run.lineCount);
  const whole = run.lines.text;
  for (let at = whole.indexOf(text); at >= 0; ) {
    const number = run.lines.numberAt(at);
    if (number >= 2 && number - 2 < run.lineCount) marks[number - 2] = 1;
    at = whole.indexOf(text, Math.max(at + 1, run.lines.starts[number]));
  }
  return marks;
}

/** The places of the lines that pass the filters, in order. */
export function passing(run, filter) {
  const found = [];
  const marks = filter.text === "" ? null : withText(run, filter.text);
  for (let place = 0; place < run.lineCount; place += 1) {
    if (filter.family >= 0 && run.lineFamilies.at(place) !== filter.family) continue;
    if (filter.host !== null && run.lineHosts.at(place) !== filter.host) continue;
    const kind = run.lineKinds[place];
    if (filter.word !== "" && wordOf(kind) !== filter.word) continue;
    if (marks && marks[place] === 0) continue;
    if (!filter.ticks && kind === "tick") continue;
    if (!filter.adverts && isOfAdvert(run, place)) continue;
    found.push(place);
  }
  return Int32Array.from(found);
}

export class LineView {
  constructor(box, count, go) {
    this.count = count;
    this.go = go;
    this.shown = new Int32Array();
    this.event = -1;
    this.list = new RowList(box, LINE_HEIGHT, (place, row) => this.draw(place, row), (place) => this.chosen(place));
  }

  setRun(run) {
    this.run = run;
  }

  filter(filter) {
    this.shown = passing(this.run, filter);
    this.list.setCount(this.shown.length);
    say(this.count, `${this.shown.length} of ${this.run.lineCount} lines`);
  }

  eventOf(place) {
    return this.run.lineEvents.at(this.shown[place]);
  }

  /** The first shown line of an event, or of the next one that has any. */
  firstOf(event) {
    let low = 0;
    let high = this.shown.length;
    while (low < high) {
      const middle = (low + high) >> 1;
      if (this.eventOf(middle) < event) low = middle + 1;
      else high = middle;
    }
    return low;
  }

  /** The next event, or the one before, that has a line which passes the filters. */
  nextEvent(event, direction) {
    const at = this.firstOf(direction > 0 ? event + 1 : event);
    const place = direction > 0 ? at : at - 1;
    return place < 0 || place >= this.shown.length ? null : this.eventOf(place);
  }

  show(event) {
    for (const row of this.list.rows.values()) row.classList.toggle("now", this.eventOf(Number(row.dataset.place)) === event);
    this.event = event;
    const first = this.firstOf(event);
    this.list.reveal(Math.min(first + 3, this.shown.length - 1));
    this.list.reveal(first);
  }

  draw(place, row) {
    const at = this.shown[place];
    const event = this.run.lineEvents.at(at);
    const number = this.run.number(event);
    const isFirst = place === 0 || this.eventOf(place - 1) !== event;
    const family = this.run.lineFamilies.at(at);
    const text = this.run.text(at + 2);
    const link = html("a", { class: "event", href: `#e=${number}`, tabindex: -1 }, String(number));
    row.classList.toggle("now", event === this.event);
    row.classList.toggle("first", isFirst);
    row.append(link, signOf(this.run.lineKinds[at]), html("span", { class: family < 0 ? "dot" : `dot ${colourOf(family)}` }),
      html("span", { class: "text", title: text.slice(0, 4000) }, text.slice(text.indexOf(" ") + 1, 600)));
  }

  chosen(place) {
    const packet = this.run.linePackets.at(this.shown[place]);
    this.go(this.eventOf(place), packet < 0 ? null : packet);
  }
}

/** Fills the choice of kinds of lines with those that the trace has. */
export function fillKinds(select, run) {
  const words = [...new Set(run.lineKinds.map(wordOf))].sort();
  refill(select, html("option", { value: "" }, "all kinds"), ...words.map((word) => html("option", { value: word }, word)));
}
