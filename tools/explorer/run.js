// A run that was read: what stands where after each event. Events have places from 0; after place -1 nothing has happened.
import { differences } from "./accounts.js";
import { RunBuilder, SPACING } from "./build.js";
import { lastAtMost, lastOf } from "./columns.js";
import { decoded, readLine, readTrace } from "./reader.js";

/** The events that change a queue's front, so that what is behind the front can be found: the latest leaving of all frames up to each. */
function latestLeavings(frames) {
  let latest = -1;
  return frames.map((frame) => {
    latest = Math.max(latest, frame.sent);
    return latest;
  });
}

export class Run {
  constructor(builder, { lines, isWhole, fault }) {
    Object.assign(this, builder, { lines, isWhole, fault });
    this.eventCount = builder.numbers.length;
    this.lineCount = builder.lineEvents.length;
    this.hostNumbers = [...builder.hosts.keys()].sort((a, b) => a - b);
    this.queueList = [...builder.queues.values()].sort((a, b) => a.host - b.host || a.device - b.device);
    for (const queue of this.queueList) queue.latest = latestLeavings(queue.frames);
    this.differences = this.ledger && isWhole ? differences(this.accounts, this.ledger) : [];
  }

  number(event) {
    return event < 0 ? 0 : this.numbers.at(event);
  }

  /** The place of the event of a number, or of the last one before it. */
  placeOf(number) {
    return lastAtMost(this.eventCount, number, (place) => this.numbers.at(place));
  }

  /** The number of an event's first line, and that of the line behind its last one. */
  linesOf(event) {
    if (event < 0) return [2, 2];
    const next = event + 1 < this.eventCount ? this.firstLines.at(event + 1) : this.lineCount + 2;
    return [this.firstLines.at(event), next];
  }

  text(line) {
    return this.lines.line(line);
  }

  said(line) {
    return readLine(this.text(line));
  }

  /** The frames in a queue after an event, the first one first. */
  queued(queue, event) {
    const { frames, latest } = queue;
    const found = [];
    let at = lastAtMost(frames.length, event, (place) => frames[place].queued);
    for (; at >= 0 && latest[at] > event; at -= 1) {
      if (frames[at].sent > event) found.push(frames[at]);
    }
    return found.reverse();
  }

  /** The frames on the wire after an event, in order of their numbers. */
  onWire(event) {
    if (event < 0) return [];
    const from = Math.floor(event / SPACING);
    const found = Array.from(this.checkpoints[from], (index) => this.frames[index]);
    const on = (place) => this.frames[this.wireOrder[place]].on;
    for (let at = lastAtMost(this.wireOrder.length, event, on); at >= 0 && on(at) >= from * SPACING; at -= 1) {
      found.push(this.frames[this.wireOrder[at]]);
    }
    return found.filter((frame) => frame.off > event).sort((a, b) => a.number - b.number);
  }

  clock(host, event) {
    const { ticks, clock } = this.hosts.get(host);
    const at = lastOf(ticks, event);
    return at < 0 ? null : clock[at];
  }

  /** The host and device at the other end of a device, where the trace shows it. */
  otherEnd(host, device) {
    if (device === 0) return { host, device };
    return this.links.get(`${host} ${device}`) ?? null;
  }

  /** Whether a frame was handed over by an event, and so stays on the wire as a copy alone. */
  isCopy(frame, event) {
    return frame.handings !== null && frame.handings[0] <= event && frame.off > event;
  }

  /** Where a frame is after an event: a state and, in a queue, its place from 1. */
  frameAt(frame, event) {
    if (frame.queued > event && frame.sent > event) return { state: "later" };
    if (frame.sent > event) {
      const queue = this.queues.get(`${frame.host} ${frame.device}`);
      return { state: "queue", place: this.queued(queue, event).indexOf(frame) + 1 };
    }
    if (frame.outside <= event) return { state: "outside" };
    if (frame.off > event) return { state: this.isCopy(frame, event) ? "copy" : "wire" };
    return { state: frame.lost <= event && frame.handings === null ? "lost" : "arrived" };
  }

  /** Where a packet is after an event: later, queue, wire, outside, host or ended. */
  packetAt(packet, event) {
    if (packet.born > event) return { state: "later", frame: null };
    if (packet.end && packet.end.event <= event) return { state: "ended", frame: null };
    for (let at = packet.frames.length - 1; at >= 0; at -= 1) {
      const frame = this.frames[packet.frames[at]];
      const found = this.frameAt(frame, event);
      if (found.state !== "later") return { ...found, frame };
    }
    return { state: "host", frame: null };
  }

  /** The packet that an event is about, or null. */
  subjectOf(event) {
    const [first, behind] = this.linesOf(event);
    for (let line = first; line < behind; line += 1) {
      const packet = this.linePackets.at(line - 2);
      if (packet >= 0) return this.packets[packet];
    }
    return null;
  }

  familyName(place) {
    return this.accounts.list[place].name;
  }

  packetName(packet) {
    return `${this.familyName(packet.family)} #${packet.number}`;
  }

  /** Whether frames have numbers on a wire. */
  get hasWire() {
    return this.wireOrder.length > 0;
  }

  /** Whether frames come from and go to where the trace doesn't see. */
  get isOpen() {
    return this.ledger === null && !this.hasWire;
  }
}

/** The run that the bytes of a file tell. */
export function runOf(bytes) {
  const { text, broken } = decoded(bytes);
  const run = runOfText(text);
  if (broken > 0 && run.fault?.number === broken) run.fault.what = "isn't UTF-8";
  return run;
}

/** The run that a text tells. */
export function runOfText(text) {
  const builder = new RunBuilder();
  const read = readTrace(text, builder);
  builder.finish();
  return new Run(builder, read);
}

/** The state in words, for a reader of the whole and for tests: what is queued and on the wire, in order. */
export function stateWords(run, event) {
  const said = (frame) => (frame.packet < 0 ? "advert" : `${run.familyName(run.packets[frame.packet].family)} bound ${frame.bound}`);
  const queues = run.queueList
    .map((queue) => ({ queue, frames: run.queued(queue, event) }))
    .filter(({ frames }) => frames.length > 0)
    .map(({ queue, frames }) => `@${queue.host} %${queue.device}: ${frames.map(said).join(", ")}`);
  const wire = run.onWire(event).map((frame) => `${frame.number}: @${frame.host} %${frame.device} ${said(frame)}${run.isCopy(frame, event) ? " copy" : ""}`);
  return { queues, wire };
}

