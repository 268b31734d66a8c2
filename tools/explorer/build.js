// Makes a run of what the lines of a trace say: queues, frames, packets, visits and accounts, each with the events at which they change.
import { Accounts } from "./accounts.js";
import { ACTS } from "./acts.js";
import { Column, NEVER } from "./columns.js";

export const SPACING = 256;

/** A frame: where it was queued, sent and handed over. */
function newFrame(index, host, device, packet, bound, line) {
  return {
    index, host, device, packet, bound, line,
    number: 0, queued: NEVER, sent: NEVER, on: NEVER, off: NEVER, lost: NEVER, outside: NEVER,
    handings: null, far: null, sendLine: 0, wireLine: 0, isUnknown: false,
  };
}

/** What is known of the event whose lines are being read. */
function freshEvent() {
  return {
    frame: null, isFirst: false, isArrival: false, isControl: false, packet: null, forged: null, visited: null, children: [],
    notes: [], came: [], sent: null, isOnWire: false, handler: null, entered: null, paid: 0,
  };
}

export class RunBuilder {
  constructor() {
    this.numbers = new Column();
    this.firstLines = new Column();
    this.lineEvents = new Column();
    this.lineKinds = [];
    this.lineHosts = new Column();
    this.lineFamilies = new Column();
    this.linePackets = new Column();
    this.lineFrames = new Column();
    this.lineNumber = 0;
    this.hosts = new Map();
    this.queues = new Map();
    this.frames = [];
    this.packets = [];
    this.familyPackets = [];
    this.accounts = new Accounts();
    this.wire = new Map();
    this.wireOrder = [];
    this.checkpoints = [];
    this.links = new Map();
    this.ledger = null;
    /** The first line of which another one, which should stand before it, is missing. */
    this.gap = 0;
    this.current = freshEvent();
  }

  get event() {
    return this.numbers.length - 1;
  }

  /** Takes what a line of an event says. */
  add(said, lineNumber) {
    if (this.numbers.length === 0 || this.numbers.at(this.event) !== said.event) this.begin(said.event, lineNumber);
    this.lineNumber = lineNumber;
    this.noted = { host: said.host ?? -1, family: -1, packet: -1, frame: -1 };
    if (said.host !== undefined) this.hostOf(said.host);
    if (said.device > 0) this.hostOf(said.host).devices.add(said.device);
    if (said.family !== undefined) this.noted.family = this.accounts.placeOf(said.family);
    ACTS[said.kind]?.(this, said, this.current);
    this.keepLine(said.kind);
  }

  keepLine(kind) {
    const { host, family, packet, frame } = this.noted;
    this.lineEvents.push(this.event);
    this.lineKinds.push(kind);
    this.lineHosts.push(host);
    this.lineFamilies.push(family < 0 && packet >= 0 ? this.packets[packet].family : family);
    this.linePackets.push(packet);
    this.lineFrames.push(frame);
  }

  begin(number, lineNumber) {
    this.finish();
    if (this.numbers.length % SPACING === 0) this.checkpoints.push(Int32Array.from(this.wire.values(), (frame) => frame.index));
    this.numbers.push(number);
    this.firstLines.push(lineNumber);
    this.current = freshEvent();
  }

  /** Settles what only the whole event tells. */
  finish() {
    const { sent, isOnWire, handler, children, entered, paid } = this.current;
    if (this.numbers.length === 0) return;
    if (sent && !isOnWire) this.goOutside(sent);
    if (handler && children.length > 0) children[children.length - 1].kind = "handler";
    if (entered) {
      entered.bound = paid;
      this.accounts.add(entered.family, "entered", paid);
    }
    this.accounts.close(this.event);
  }

  beginLedger() {
    this.ledger = [];
  }

  addRow(row) {
    this.ledger.push(row);
  }

  hostOf(number) {
    let host = this.hosts.get(number);
    if (!host) {
      host = { number, devices: new Set(), ticks: [], clock: [] };
      this.hosts.set(number, host);
    }
    return host;
  }

  queueOf(host, device) {
    const key = `${host} ${device}`;
    let queue = this.queues.get(key);
    if (!queue) {
      queue = { host, device, frames: [], latest: [], first: 0 };
      this.queues.set(key, queue);
    }
    return queue;
  }

  missing() {
    if (this.gap === 0) this.gap = this.lineNumber;
  }

  newPacket(kind, familyPlace, bound, host) {
    const siblings = (this.familyPackets[familyPlace] ??= []);
    const packet = {
      index: this.packets.length, kind, family: familyPlace, number: siblings.length + 1, parent: -1, bound, host,
      born: this.event, line: this.lineNumber, frames: [], children: [], visit: null, end: null,
    };
    siblings.push(packet.index);
    this.packets.push(packet);
    return packet;
  }

  newFrame(host, device, packet, bound) {
    const frame = newFrame(this.frames.length, host, device, packet ? packet.index : -1, bound, this.lineNumber);
    this.frames.push(frame);
    if (packet) packet.frames.push(frame.index);
    return frame;
  }

  enqueue(frame) {
    frame.queued = this.event;
    this.queueOf(frame.host, frame.device).frames.push(frame);
    this.noted.frame = frame.index;
  }

  /** The first frame of a queue that this may be; where there is none, the trace lacks a line, and the frame's bound isn't known. */
  dequeue(host, device, familyPlace) {
    const queue = this.queueOf(host, device);
    const fits = (frame) => frame.sent === NEVER
      && (familyPlace < 0 ? frame.packet < 0 : frame.packet >= 0 && this.packets[frame.packet].family === familyPlace);
    let at = queue.first;
    while (at < queue.frames.length && !fits(queue.frames[at])) at += 1;
    if (at < queue.frames.length) {
      if (at !== queue.first) this.missing();
      const frame = queue.frames[at];
      frame.sent = this.event;
      while (queue.first < queue.frames.length && queue.frames[queue.first].sent !== NEVER) queue.first += 1;
      return frame;
    }
    this.missing();
    const frame = this.newFrame(host, device, familyPlace < 0 ? null : this.newPacket("unknown", familyPlace, 0, host), 0);
    frame.isUnknown = true;
    frame.sent = this.event;
    return frame;
  }

  goOutside(frame) {
    frame.outside = frame.sent;
    if (frame.packet >= 0) {
      const { family } = this.packets[frame.packet];
      this.accounts.add(family, "live", -frame.bound);
      this.accounts.add(family, "gone", frame.bound);
    }
  }

  endPacket(packet, how, words) {
    packet.end = { event: this.event, line: this.lineNumber, how, words };
    this.noted.packet = packet.index;
  }

  /** The packet that this event is about, where a line tells that there must be one: one that came from outside is begun. */
  subject(said, event) {
    const place = this.noted.family;
    const known = event.packet ?? event.forged;
    if (known && known.family === place) return known;
    if (!event.isArrival && !event.isControl) this.missing();
    if (event.frame) this.missing();
    event.entered = this.newPacket("entered", place, 0, said.host);
    event.packet = event.entered;
    for (const line of [...event.came, ...event.notes]) this.belongs(line, event.entered);
    return event.packet;
  }

  /** A line that was read belongs to a packet. Events begin at line 2. */
  belongs(line, packet) {
    this.linePackets.set(line - 2, packet.index);
    this.lineFamilies.set(line - 2, packet.family);
  }

  learnLink(frame, host, device) {
    frame.far = { host, device };
    this.links.set(`${frame.host} ${frame.device}`, frame.far);
    if (!this.links.has(`${host} ${device}`)) this.links.set(`${host} ${device}`, { host: frame.host, device: frame.device });
  }

  noteFrame(frame) {
    this.noted.frame = frame.index;
    this.noted.packet = frame.packet;
  }

  /** The packet that is queued or dropped here: a child of the visit that ended, or the one that goes through. */
  moving(said, event) {
    if (!event.visited) return this.subject(said, event);
    const child = this.newPacket("sent", this.noted.family, said.bound, said.host);
    child.parent = event.visited.index;
    event.visited.children.push(child.index);
    event.children.push(child);
    return child;
  }

  onWire(number) {
    const frame = this.wire.get(number);
    if (frame) this.noteFrame(frame);
    else this.missing();
    return frame ?? null;
  }
}
