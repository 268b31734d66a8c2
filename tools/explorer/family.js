// The ledger of all families at the current event, and one family's packets as a tree.
import { colourOf, html, say } from "./dom.js";
import { RowList } from "./rows.js";
import { signOf } from "./signs.js";
import { beginning, whereabouts } from "./words.js";

const PACKET_HEIGHT = 24;
const DEEPEST = 8;
// pixels: how wide a digit of the ledger and a letter of its head are, and what stands between and beside its columns
const DIGIT = 7.9;
const HEAD_LETTER = 6.6;
const MOST_OF_NAME = 14;
const LEDGER_EDGE = 60;
export const HEADS = ["granted", "hops", "evals", "live", "left"];
const SIGNS = { injected: "inject", forged: "forged", entered: "arrive", sent: "send", handler: "handler", unknown: "nothing" };

/** The packets of a family, each behind its parent and in front of its own children, with its depth. */
function inTreeOrder(run, family) {
  const found = [];
  const waiting = [...run.familyPackets[family] ?? []].filter((index) => run.packets[index].parent < 0).reverse().map((index) => [index, 0]);
  while (waiting.length > 0) {
    const [index, depth] = waiting.pop();
    found.push({ packet: run.packets[index], depth });
    const { children } = run.packets[index];
    for (let at = children.length - 1; at >= 0; at -= 1) waiting.push([children[at], depth + 1]);
  }
  return found;
}

/** Draws rows again only where what they say is another. */
function again(list, words) {
  for (const [place, row] of list.rows) {
    const text = words(place);
    if (row.dataset.words !== text) {
      row.replaceChildren();
      list.draw(place, row);
      row.dataset.words = text;
    }
  }
}

export class Ledger {
  constructor(box, choose) {
    this.choose = choose;
    this.list = new RowList(box, PACKET_HEIGHT, (place, row) => this.draw(place, row), (place) => choose(place));
  }

  setRun(run) {
    this.run = run;
    this.event = -1;
    this.family = -1;
    this.list.cursor = -1;
    this.widen();
    this.list.setCount(run.accounts.list.length);
  }

  /** Makes each column as wide as its head and its greatest number. */
  widen() {
    const { accounts, isOpen } = this.run;
    const most = accounts.greatest();
    if (isOpen) {
      most.granted += most.entered;
      most.left += most.gone;
    }
    const widths = HEADS.map((head) => Math.ceil(Math.max(head.length * HEAD_LETTER, String(most[head]).length * DIGIT)));
    const name = Math.min(MOST_OF_NAME, accounts.list.reduce((longest, it) => Math.max(longest, it.name.length), 0));
    const { style } = document.body;
    style.setProperty("--ledger", `minmax(44px, 1.3fr) ${widths.map((width) => `minmax(${width}px, 1fr)`).join(" ")}`);
    style.setProperty("--ledger-wide", `${widths.reduce((sum, width) => sum + width, name * DIGIT + LEDGER_EDGE)}px`);
  }

  show(event, family) {
    const isOther = family !== this.family;
    [this.event, this.family] = [event, family];
    again(this.list, (place) => this.words(place));
    if (isOther && family >= 0) this.list.reveal(family);
  }

  words(place) {
    return `${Object.values(this.run.accounts.after(place, this.event)).join(" ")} ${place === this.family}`;
  }

  draw(place, row) {
    const counts = this.run.accounts.after(place, this.event);
    const isNotYet = this.run.accounts.beginning(place) > this.event;
    row.classList.toggle("chosen", place === this.family);
    row.classList.toggle("later", isNotYet);
    const came = this.run.isOpen ? counts.granted + counts.entered : counts.granted;
    const last = this.run.isOpen ? counts.left + counts.gone : counts.left;
    row.append(html("span", { class: `name ${colourOf(place)}`, title: this.run.familyName(place) }, this.run.familyName(place)),
      ...[came, counts.hops, counts.evals, counts.live, last].map((count) => html("span", { class: "number" }, String(count))));
    row.dataset.words = this.words(place);
  }
}

export class Tree {
  constructor(box, title, choose) {
    [this.title, this.choose] = [title, choose];
    this.list = new RowList(box, PACKET_HEIGHT, (place, row) => this.draw(place, row), (place) => choose(this.order[place].packet.index));
    this.order = [];
    this.family = -1;
  }

  show(run, family, event, packet) {
    const isOther = this.run !== run || this.family !== family;
    const isMoved = this.packet !== packet;
    [this.run, this.family, this.event, this.packet] = [run, family, event, packet];
    if (isOther) {
      this.order = family < 0 ? [] : inTreeOrder(run, family);
      this.list.cursor = -1;
      this.list.setCount(this.order.length);
    }
    say(this.title, family < 0 ? "No family" : `Family ${run.familyName(family)}: ${this.order.length} ${this.order.length === 1 ? "packet" : "packets"}`);
    again(this.list, (place) => this.words(place));
    if ((isOther || isMoved) && packet >= 0) this.list.reveal(this.order.findIndex((it) => it.packet.index === packet));
  }

  words(place) {
    const { packet } = this.order[place];
    return `${whereabouts(this.run, packet, this.event)} ${packet.index === this.packet}`;
  }

  draw(place, row) {
    const { packet, depth } = this.order[place];
    const where = whereabouts(this.run, packet, this.event);
    const { state } = this.run.packetAt(packet, this.event);
    row.className = `row ${place === this.list.cursor ? "cursor" : ""} state-${state} ${packet.index === this.packet ? "chosen" : ""}`;
    row.style.paddingLeft = `${6 + Math.min(depth, DEEPEST) * 14}px`;
    const sign = state === "ended" ? signOf(packet.end.how) : signOf(SIGNS[packet.kind]);
    row.append(sign, html("b", {}, `#${packet.number}`), html("span", { class: "where" }, where), html("span", { class: "born" }, beginning(packet)));
    row.title = `${depth > DEEPEST ? `depth ${depth}: ` : ""}${beginning(packet)}; ${where.slice(0, 4000)}`;
    row.dataset.words = this.words(place);
  }
}
