// A long list of which only the rows in sight are there.
import { html } from "./dom.js";

// browsers know no element higher than some 33 million pixels
const HIGHEST = 30_000_000;

export class RowList {
  /** `draw(place, row)` fills the row of a place, `choose(place)` is called where one is chosen. */
  constructor(box, height, draw, choose) {
    this.box = box;
    this.height = height;
    this.draw = draw;
    this.choose = choose;
    this.count = 0;
    this.cursor = -1;
    /** What was brought into sight last, and stays there in another size. */
    this.kept = -1;
    this.rows = new Map();
    this.sheet = html("div", { class: "sheet" });
    box.replaceChildren(this.sheet);
    box.tabIndex = 0;
    box.addEventListener("scroll", () => this.place(), { passive: true });
    box.addEventListener("keydown", (press) => this.pressed(press));
    box.addEventListener("click", (press) => this.clicked(press));
    new ResizeObserver(() => this.reveal(this.kept)).observe(box);
  }

  get view() {
    return this.box.clientHeight;
  }

  /** How far a pixel of scrolling goes in a list that is higher than elements may be. */
  get stretch() {
    const whole = this.count * this.height;
    return whole <= HIGHEST ? 1 : (whole - this.view) / (HIGHEST - this.view);
  }

  setCount(count) {
    this.count = count;
    this.cursor = Math.min(this.cursor, count - 1);
    this.sheet.style.height = `${Math.min(count * this.height, HIGHEST)}px`;
    this.redraw();
  }

  /** Draws all rows in sight again. */
  redraw() {
    for (const row of this.rows.values()) row.remove();
    this.rows.clear();
    this.place();
  }

  /** Puts the rows in sight in their places. */
  place() {
    const top = this.box.scrollTop * this.stretch;
    const first = Math.max(0, Math.floor(top / this.height) - 4);
    const behind = Math.min(this.count, Math.ceil((top + this.view) / this.height) + 4);
    for (const [place, row] of this.rows) {
      if (place < first || place >= behind) {
        row.remove();
        this.rows.delete(place);
      }
    }
    for (let place = first; place < behind; place += 1) {
      const row = this.rows.get(place) ?? this.newRow(place);
      row.style.transform = `translateY(${this.box.scrollTop + place * this.height - top}px)`;
    }
  }

  newRow(place) {
    const row = html("div", { class: "row", "data-place": place });
    row.style.height = `${this.height}px`;
    if (place === this.cursor) row.classList.add("cursor");
    this.draw(place, row);
    this.rows.set(place, row);
    this.sheet.append(row);
    return row;
  }

  /** Brings a place into sight, into the middle where it was outside. */
  reveal(place) {
    if (place < 0 || place >= this.count) {
      this.place();
      return;
    }
    this.kept = place;
    const top = this.box.scrollTop * this.stretch;
    const at = place * this.height;
    if (at < top || at + this.height > top + this.view) {
      this.box.scrollTop = Math.max(0, at - (this.view - this.height) / 2) / this.stretch;
    }
    this.place();
  }

  moveCursor(place) {
    if (this.count === 0) return;
    this.rows.get(this.cursor)?.classList.remove("cursor");
    this.cursor = Math.max(0, Math.min(this.count - 1, place));
    this.reveal(this.cursor);
    this.rows.get(this.cursor)?.classList.add("cursor");
  }

  pressed(press) {
    const page = Math.max(1, Math.floor(this.view / this.height) - 1);
    const steps = { ArrowDown: 1, ArrowUp: -1, PageDown: page, PageUp: -page };
    if (press.key in steps) this.moveCursor(this.cursor + steps[press.key]);
    else if (press.key === "Enter" && this.cursor >= 0) this.choose(this.cursor);
    else return;
    press.preventDefault();
    press.stopPropagation();
  }

  clicked(press) {
    const row = press.target.closest(".row");
    if (!row || press.target.closest("a, button") || String(document.getSelection()) !== "") return;
    this.moveCursor(Number(row.dataset.place));
    this.choose(this.cursor);
  }
}
