// The picture of the network: hosts, links, queues as stacks, and frames on the wire.
import { NEVER } from "./columns.js";
import { colourOf, cutText, say, svg } from "./dom.js";
import { fitted, spread } from "./layout.js";
import { isOfAdvert } from "./lines.js";
import { markPath, signOf } from "./signs.js";

const STEP = 9;
const LANE = 7;
const MOST_IN_STACK = 6;
const MOST_NAMED = 3;
const MOST_ABOVE = 3;
// pixels: how wide a letter of a host's name is, how far a device's name stands from its host and its link, and what it takes up
const LETTER = 8;
const AHEAD = 9;
const BESIDE = 14;
const SIGN_ROOM = { wide: 39, high: 12 };
const NEAR = 8;
const LONGEST_CLOCK = 7;

/** The links of a run, each once, with the devices of its ends; a device whose other end no line shows leads outside. */
function linksOf(run) {
  const links = [];
  const seen = new Set();
  for (const host of run.hostNumbers) {
    for (const device of [...run.hosts.get(host).devices].sort((a, b) => a - b)) {
      if (seen.has(`${host} ${device}`)) continue;
      const far = run.otherEnd(host, device);
      links.push({ host, device, far });
      seen.add(`${host} ${device}`);
      if (far) seen.add(`${far.host} ${far.device}`);
    }
  }
  return links;
}

/** How far a frame on the wire has gone, by the events from its sending to its arrival. */
function progress(run, frame, event) {
  const behind = frame.off === NEVER ? run.eventCount : frame.off;
  return (event - frame.on + 1) / (behind - frame.on + 1);
}

/** A host's clock, as short as its box is wide; whole it stands in what is said of the host. */
function clockText(now) {
  const text = now < 1000 ? `now ${now}` : String(now);
  return text.length <= LONGEST_CLOCK ? text : `…${text.slice(1 - LONGEST_CLOCK)}`;
}

export class Network {
  constructor(box, choose) {
    this.box = box;
    this.choose = choose;
    this.picture = svg("svg", { class: "network", role: "group", "aria-label": "The network" });
    this.still = svg("g");
    this.moving = svg("g");
    this.hostLayer = svg("g");
    this.picture.append(this.still, this.moving, this.hostLayer);
    box.replaceChildren(this.picture);
    this.marks = new Map();
    this.run = null;
    this.event = undefined;
    new ResizeObserver(() => this.arrange()).observe(box);
  }

  setRun(run) {
    this.run = run;
    this.links = linksOf(run);
    this.points = run.hostNumbers.map((number) => ({ number }));
    const placeOf = new Map(run.hostNumbers.map((number, place) => [number, place]));
    const pairs = this.links.map((link) => {
      if (link.far) return [placeOf.get(link.host), placeOf.get(link.far.host)];
      link.outside = this.points.length;
      this.points.push({ number: null });
      return [placeOf.get(link.host), link.outside];
    });
    this.placeOf = placeOf;
    this.shape = spread(this.points.length, pairs);
    // the event that was shown is of another run
    this.event = undefined;
    this.size = "";
    this.arrange();
  }

  /** Places everything for the size that the box has. */
  arrange() {
    const [width, height] = [this.box.clientWidth, this.box.clientHeight];
    if (!this.run || width < 60 || height < 60 || this.size === `${width} ${height}`) return;
    this.size = `${width} ${height}`;
    const many = this.run.hostNumbers.length > 12;
    this.half = many ? { x: width < 500 ? 15 : 18, y: width < 500 ? 9 : 11 } : { x: 24, y: 15 };
    const longest = String(this.run.hostNumbers.at(-1) ?? "").length + 1;
    this.half.x = Math.max(this.half.x, Math.ceil(longest * LETTER / 2) + 3);
    const room = { left: this.half.x + 20, right: width - this.half.x - 20, top: 48, bottom: height - 40 };
    this.picture.setAttribute("viewBox", `0 0 ${width} ${height}`);
    const gap = many ? 6 : 30;
    this.spots = fitted(this.shape, room, this.half.x * 2 + gap, this.half.y * 2 + gap + 6);
    this.drawStill();
    this.drawHosts();
    for (const { mark } of this.marks.values()) mark.remove();
    this.marks.clear();
    if (this.event !== undefined) this.show(this.event, this.choice);
  }

  spotOf(host) {
    return this.spots[this.placeOf.get(host)];
  }

  /** The way from a device to the other end of its link: where it begins, its direction and its length between the two hosts' rims. */
  way(host, device) {
    const far = this.run.otherEnd(host, device);
    const from = this.spotOf(host);
    const link = this.links.find((it) => it.host === host && it.device === device && !it.far);
    const to = far ? this.spotOf(far.host) : this.spots[link?.outside ?? this.placeOf.get(host)];
    const length = Math.hypot(to.x - from.x, to.y - from.y) || 1;
    const [ux, uy] = [(to.x - from.x) / length, (to.y - from.y) / length];
    const rim = Math.min(this.half.x / Math.max(Math.abs(ux), 1e-6), this.half.y / Math.max(Math.abs(uy), 1e-6)) + 5;
    return { from, to, ux, uy, rim, length: Math.max(0, length - rim * (far ? 2 : 1)), length0: length };
  }

  /** A point on a way's own lane, which lies to the right of who goes it. */
  onLane(way, along, aside = LANE) {
    const at = way.rim + along;
    return { x: way.from.x + way.ux * at - way.uy * aside, y: way.from.y + way.uy * at + way.ux * aside, side: way.ux };
  }

  drawStill() {
    this.still.replaceChildren();
    this.lines = new Map();
    const labelled = this.run.hostNumbers.length <= 12;
    for (const { host, device, far } of this.links) {
      const way = this.way(host, device);
      const line = svg("line", { class: far ? "link" : "link outside", x1: way.from.x, y1: way.from.y, x2: way.to.x, y2: way.to.y });
      this.still.append(line);
      this.lines.set(`${host} ${device}`, line);
      if (far) this.lines.set(`${far.host} ${far.device}`, line);
      else this.still.append(svg("circle", { class: "outside-end", cx: way.to.x, cy: way.to.y, r: 5 }));
      if (labelled) this.labelDevice(way, device);
      if (labelled && far) this.labelDevice(this.way(far.host, far.device), far.device);
    }
  }

  /** Where the name of a device stands: to the left of who goes its way, where no frame goes. */
  deviceSpot(way) {
    const along = way.rim + AHEAD;
    return { x: way.from.x + way.ux * along + way.uy * BESIDE, y: way.from.y + way.uy * along - way.ux * BESIDE };
  }

  labelDevice(way, device) {
    const at = this.deviceSpot(way);
    this.still.append(svg("text", { class: "device", x: at.x, y: at.y, "text-anchor": "middle", "dominant-baseline": "central" }, `%${device}`));
  }

  drawHosts() {
    this.hostLayer.replaceChildren();
    this.hostMarks = new Map();
    for (const number of this.run.hostNumbers) {
      const { x, y } = this.spotOf(number);
      const body = svg("rect", { x: -this.half.x, y: -this.half.y, width: this.half.x * 2, height: this.half.y * 2, rx: 6 });
      const name = svg("text", { class: "host-name", "text-anchor": "middle", "dominant-baseline": "central" }, `@${number}`);
      const clock = svg("text", { class: "clock", "text-anchor": "middle", y: this.half.y - 4 });
      const title = svg("title");
      const free = this.freeCorner(number);
      const signs = svg("g", { class: "signs", transform: `translate(${free.x} ${free.y})` });
      const host = svg("g", { class: "host", tabindex: 0, role: "button", "aria-label": `host @${number}`, transform: `translate(${x} ${y})` },
        title, body, name, clock, signs);
      host.addEventListener("click", () => this.choose({ host: number }));
      host.addEventListener("keydown", (press) => {
        if (press.key !== "Enter") return;
        this.choose({ host: number });
        press.stopPropagation();
      });
      this.hostLayer.append(host);
      this.hostMarks.set(number, { host, name, clock, title, signs });
    }
  }

  /** Where the signs of an event stand at a host: at the corner that the fewest names, links and frames touch. */
  freeCorner(number) {
    const spot = this.spotOf(number);
    const taken = [];
    for (const device of this.run.hosts.get(number).devices) {
      const way = this.way(number, device);
      const name = this.deviceSpot(way);
      taken.push({ x: name.x - spot.x, y: name.y - spot.y });
      for (let along = 0; along < 60; along += STEP) taken.push({ x: way.ux * (way.rim + along), y: way.uy * (way.rim + along) });
    }
    const [right, left, above, below] = [this.half.x - 12, -this.half.x - 1, -this.half.y - 15, this.half.y + 4];
    const corners = [[right, above], [left, above], [right, below], [left, below]];
    const isIn = (it, x, y) => it.x > x - NEAR && it.x < x + SIGN_ROOM.wide + NEAR && it.y > y - NEAR && it.y < y + SIGN_ROOM.high + NEAR;
    const counted = corners.map(([x, y]) => ({ x, y, hits: taken.filter((it) => isIn(it, x, y)).length }));
    return counted.reduce((best, it) => (it.hits < best.hits ? it : best));
  }

  /** Shows the state after an event. The choice has the host and family that were chosen, and whether adverts and ticks are shown. */
  show(event, choice) {
    [this.event, this.choice] = [event, choice];
    if (!this.spots) return;
    const wanted = new Map();
    const counts = [];
    const isShown = (frame) => choice.adverts || frame.packet >= 0;
    for (const queue of this.run.queueList) {
      this.stack(queue, this.run.queued(queue, event).filter(isShown), wanted, counts);
    }
    const lanes = new Map();
    for (const frame of this.run.onWire(event).filter(isShown)) {
      const key = `${frame.host} ${frame.device}`;
      if (!lanes.has(key)) lanes.set(key, []);
      lanes.get(key).push(frame);
    }
    for (const frames of lanes.values()) this.lane(frames, event, wanted, counts);
    this.moveMarks(wanted);
    this.showCounts(counts);
    this.showEvent(event, choice);
  }

  /** The frames of a queue, the first one outermost; what has no place is counted. */
  stack(queue, frames, wanted, counts) {
    if (frames.length === 0) return;
    if (queue.device === 0) {
      this.above(queue.host, frames, "queued", 0, wanted, counts);
      return;
    }
    const way = this.way(queue.host, queue.device);
    const places = Math.max(1, Math.min(MOST_IN_STACK, Math.floor((way.length / 2 - 14) / STEP)));
    const shown = Math.min(frames.length, places);
    frames.slice(0, shown).forEach((frame, place) => {
      wanted.set(frame.index, { frame, state: "queued", ...this.onLane(way, (shown - place - 0.5) * STEP) });
    });
    if (frames.length > shown) counts.push({ ...this.onLane(way, (shown + 1.3) * STEP), text: `+${frames.length - shown}` });
  }

  /** Device 0 leads to its own host: its frames stand above it, those on the wire in a row of their own. */
  above(host, frames, state, row, wanted, counts) {
    const spot = this.spotOf(host);
    const [x, y] = [spot.x - this.half.x, spot.y - this.half.y - 8 - row * 12];
    frames.slice(0, MOST_ABOVE).forEach((frame, place) => wanted.set(frame.index, { frame, state, x: x + 5 + place * STEP, y }));
    if (frames.length > MOST_ABOVE) counts.push({ x: x - 10, y, text: `+${frames.length - MOST_ABOVE}` });
  }

  /** The frames of one direction of a link, each as far as it has gone. */
  lane(frames, event, wanted, counts) {
    const { host, device } = frames[0];
    if (device === 0) {
      const copies = frames.filter((frame) => this.run.isCopy(frame, event));
      this.above(host, frames.filter((frame) => !copies.includes(frame)), "wired", 1, wanted, counts);
      this.above(host, copies, "copy", 2, wanted, counts);
      return;
    }
    const way = this.way(host, device);
    // behind the queue's stack, and in front of the name of the device at the other end
    const [from, to] = [Math.min(way.length * 0.35, MOST_IN_STACK * STEP + 8), Math.max(way.length - 2 * AHEAD - 6, way.length * 0.6)];
    const places = Math.max(1, Math.floor((to - from) / STEP));
    const order = frames.map((frame) => [progress(this.run, frame, event), frame]).sort((a, b) => b[0] - a[0]);
    let before = to + STEP;
    order.slice(0, places).forEach(([part, frame], place) => {
      const least = from + (Math.min(places, order.length) - 1 - place) * STEP;
      before = Math.max(least, Math.min(before - STEP, from + (to - from) * part));
      const state = this.run.isCopy(frame, event) ? "copy" : "wired";
      wanted.set(frame.index, { frame, state, isNamed: order.length <= MOST_NAMED, ...this.onLane(way, before) });
    });
    if (order.length > places) counts.push({ ...this.onLane(way, (from + to) / 2, LANE + 13), text: `+${order.length - places}` });
  }

  moveMarks(wanted) {
    for (const [index, { mark }] of this.marks) {
      if (wanted.has(index)) continue;
      mark.remove();
      this.marks.delete(index);
    }
    for (const [index, { frame, state, isNamed, x, y, side }] of wanted) {
      const known = this.marks.get(index) ?? this.newMark(frame, x, y);
      known.mark.style.transform = `translate(${x}px, ${y}px)`;
      if (known.state !== state) known.mark.dataset.state = state;
      known.state = state;
      known.mark.lastChild.setAttribute("y", side < 0 ? -8 : 15);
      known.mark.classList.toggle("named", isNamed === true);
      known.mark.classList.toggle("chosen", frame.packet >= 0 && frame.packet === this.choice.packet);
    }
  }

  newMark(frame, x, y) {
    const family = frame.packet < 0 ? null : this.run.packets[frame.packet].family;
    const name = family === null ? "advert" : `${this.run.packetName(this.run.packets[frame.packet])}, bound ${frame.bound}`;
    const mark = svg("g", { class: `mark ${family === null ? "of-advert" : colourOf(family)}`, "data-frame": frame.index },
      svg("title", {}, name), svg("path", { d: markPath(this.run, frame) }));
    if (family !== null && this.run.hostNumbers.length <= 12) {
      mark.append(svg("text", { class: "mark-name", "text-anchor": "middle" }, this.run.familyName(family)));
    }
    const queuedAt = this.spotOf(frame.host);
    mark.style.transform = frame.queued === this.event ? `translate(${queuedAt.x}px, ${queuedAt.y}px)` : `translate(${x}px, ${y}px)`;
    mark.addEventListener("click", () => this.choose({ frame }));
    this.moving.append(mark);
    mark.getBoundingClientRect();
    const known = { mark, state: "" };
    this.marks.set(frame.index, known);
    return known;
  }

  showCounts(counts) {
    this.countLayer?.remove();
    this.countLayer = svg("g", {}, ...counts.map(({ x, y, text }) =>
      svg("text", { class: "count", x, y, "text-anchor": "middle", "dominant-baseline": "central" }, text)));
    this.picture.append(this.countLayer);
  }

  /** Marks what the event itself did: its hosts, its link, and a cross where a frame was lost. */
  showEvent(event, choice) {
    const told = this.told(event, choice);
    for (const [number, { host, name, clock, title, signs }] of this.hostMarks) {
      host.classList.toggle("acting", told.signs.has(number));
      host.classList.toggle("chosen", choice.host === number);
      const now = choice.ticks ? this.run.clock(number, event) : null;
      const hasRoom = this.half.y > 12;
      say(clock, now === null || !hasRoom ? "" : clockText(now));
      name.setAttribute("y", clock.textContent === "" ? 0 : -6);
      say(title, this.describe(number, event));
      const kinds = [...(told.signs.get(number) ?? [])].slice(0, 3);
      if (signs.dataset.kinds !== kinds.join()) {
        signs.dataset.kinds = kinds.join();
        signs.replaceChildren(...kinds.map((kind, place) => svg("g", { transform: `translate(${place * 13} 0)` }, signOf(kind))));
      }
    }
    for (const line of this.lines.values()) line.classList.remove("used");
    for (const key of told.ways) this.lines.get(key)?.classList.add("used");
    this.showLost(told.lost);
  }

  /** What an event did: by hosts its signs, the ways that its frame took, and the frame that was lost. Adverts and ticks only where they are shown. */
  told(event, choice) {
    const [first, behind] = this.run.linesOf(event);
    const told = { signs: new Map(), ways: new Set(), lost: null };
    for (let line = first; line < behind; line += 1) {
      if ((!choice.ticks && this.run.lineKinds[line - 2] === "tick") || (!choice.adverts && isOfAdvert(this.run, line - 2))) continue;
      const [kind, host, index] = [this.run.lineKinds[line - 2], this.run.lineHosts.at(line - 2), this.run.lineFrames.at(line - 2)];
      const frame = index < 0 ? null : this.run.frames[index];
      if (frame && (kind === "off" || kind === "again" || kind === "wire")) told.ways.add(`${frame.host} ${frame.device}`);
      if (frame && (kind === "lost" || kind === "lost_advert")) told.lost = frame;
      if (host < 0 || kind === "wire") continue;
      if (!told.signs.has(host)) told.signs.set(host, new Set());
      if (kind !== "arrive" && kind !== "advert") told.signs.get(host).add(kind);
    }
    return told;
  }

  showLost(frame) {
    this.lostMark?.remove();
    this.lostMark = null;
    if (!frame || frame.device === 0) return;
    const way = this.way(frame.host, frame.device);
    const { x, y } = this.onLane(way, way.length / 2);
    this.lostMark = svg("g", { class: "lost-mark", transform: `translate(${x - 8} ${y - 8})` }, signOf("lost", 16));
    this.picture.append(this.lostMark);
  }

  /** What stands at a host in few words, for who doesn't see the picture. */
  describe(number, event) {
    const queues = this.run.queueList.filter((queue) => queue.host === number);
    const counts = queues.map((queue) => `%${queue.device}: ${this.run.queued(queue, event).length}`);
    const now = this.run.clock(number, event);
    return cutText(`@${number}${now === null ? "" : `, now ${now}`}${counts.length ? `, queued on ${counts.join(", ")}` : ""}`, 160);
  }
}
