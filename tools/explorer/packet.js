// One packet or frame: its way, its visit, what it sent, its lines and its bytes.
import { colourOf, html, refill, say } from "./dom.js";
import { bytesOf, dumped, headOf } from "./frame.js";
import { beginning, ending, steps, whereabouts } from "./words.js";

const MOST_ROWS = 300;

/** At most so many items, and a line that says how many more there are. */
function atMost(items, made) {
  const shown = items.slice(0, MOST_ROWS).map(made);
  if (items.length > MOST_ROWS) shown.push(html("li", {}, `and ${items.length - MOST_ROWS} more`));
  return shown;
}

export class PacketView {
  /** `choose` takes a packet's index. */
  constructor(box, title, choose) {
    [this.box, this.title, this.choose] = [box, title, choose];
    this.key = "";
  }

  show(run, event, packet, frame) {
    const key = `${packet?.index} ${frame?.index} ${event}`;
    if (this.run === run && this.key === key) return;
    const isSame = this.run === run && this.about === (packet ?? frame);
    [this.run, this.event, this.key, this.about] = [run, event, key, packet ?? frame];
    const top = isSame ? this.box.scrollTop : 0;
    if (packet) this.showPacket(packet);
    else if (frame) this.showFrame(frame);
    else {
      say(this.title, "No packet");
      refill(this.box, html("p", { class: "hint" }, "Choose a packet in its family, in the network or among the lines."));
    }
    this.box.scrollTop = top;
  }

  eventLink(event) {
    return html("a", { class: "event", href: `#e=${this.run.number(event)}` }, String(this.run.number(event)));
  }

  showPacket(packet) {
    say(this.title, `Packet ${this.run.packetName(packet)}`);
    const frames = packet.frames.map((index) => this.run.frames[index]);
    refill(this.box, this.summary(packet), this.way(packet, frames), ...this.visit(packet), ...this.family(packet), this.lines(packet), ...this.bytes(frames));
  }

  showFrame(frame) {
    say(this.title, frame.number ? `Frame ${frame.number}, an advert` : `An advert in the queue of @${frame.host} %${frame.device}`);
    refill(this.box, html("h3", {}, "Its way"), this.stepList(steps(this.run, frame)), ...this.bytes([frame]));
  }

  summary(packet) {
    const rows = [["now", whereabouts(this.run, packet, this.event)], ["begun", beginning(packet)]];
    if (packet.end) rows.push(["in the end", ending(this.run, packet)]);
    return html("dl", { class: `facts ${colourOf(packet.family)}` }, ...rows.flatMap(([name, text]) => [html("dt", {}, name), html("dd", {}, text)]));
  }

  stepList(found) {
    return html("ol", { class: "steps" }, ...atMost(found, ({ event, text }) =>
      html("li", { class: event > this.event ? "later" : event === this.event ? "now" : "" }, this.eventLink(event), html("span", {}, text))));
  }

  way(packet, frames) {
    const found = [{ event: packet.born, text: beginning(packet) }, ...frames.flatMap((frame) => steps(this.run, frame))];
    if (packet.end) found.push({ event: packet.end.event, text: ending(this.run, packet).replace(/, event \d+$/, "") });
    found.sort((a, b) => a.event - b.event);
    return html("section", {}, html("h3", {}, "Its way, with its bound at each hop"), this.stepList(found));
  }

  visit(packet) {
    const { visit } = packet;
    if (!visit) return [];
    const counts = [["at", `@${visit.host}`], ["evals", String(visit.evals)], ["left", String(visit.left)]];
    const facts = visit.words === "" ? counts : [...counts, [visit.how, visit.words]];
    const notes = visit.notes.map((line) => {
      const said = this.run.said(line);
      return html("li", {}, html("span", { class: "tag" }, said.kind === "port" ? `port ${said.port}` : "print"), html("span", { class: "value" }, said.value));
    });
    return [html("section", {}, html("h3", {}, "Its visit, event ", this.eventLink(visit.event)),
      html("dl", { class: "facts" }, ...facts.flatMap(([name, text]) => [html("dt", {}, name), html("dd", { class: "value" }, text)])),
      notes.length > 0 ? html("ul", { class: "notes" }, ...notes.slice(0, MOST_ROWS)) : "")];
  }

  packetLink(packet) {
    const link = html("button", { class: "link", type: "button" }, `#${packet.number}`);
    link.addEventListener("click", () => this.choose(packet.index));
    return link;
  }

  family(packet) {
    const parts = [];
    if (packet.parent >= 0) parts.push(html("p", {}, "Sent by ", this.packetLink(this.run.packets[packet.parent])));
    if (packet.children.length > 0) {
      const sent = packet.children.map((index) => this.run.packets[index]);
      parts.push(html("h3", {}, "It sent"), html("ul", { class: "children" }, ...atMost(sent, (child) =>
        html("li", {}, this.packetLink(child), html("span", {}, `${beginning(child)}; ${whereabouts(this.run, child, this.event)}`)))));
    }
    return parts;
  }

  /** The places of the lines that name this packet, from its first event to its last. */
  linePlaces(packet) {
    const { run } = this;
    const events = new Set([packet.born]);
    if (packet.end) events.add(packet.end.event);
    for (const index of packet.frames) for (const { event } of steps(run, run.frames[index])) events.add(event);
    const places = [];
    for (const event of [...events].sort((a, b) => a - b)) {
      const [first, behind] = run.linesOf(event);
      for (let line = first; line < behind; line += 1) if (run.linePackets.at(line - 2) === packet.index) places.push(line);
    }
    return places;
  }

  lines(packet) {
    const text = this.linePlaces(packet).slice(0, MOST_ROWS).map((line) => this.run.text(line).slice(0, 2000)).join("\n");
    return html("section", {}, html("h3", {}, "Its lines"), html("pre", { class: "packet-lines" }, text));
  }

  /** The bytes of the frame that was sent last up to now, or of the first one. */
  bytes(frames) {
    const shown = frames.filter((frame) => frame.wireLine > 0);
    if (shown.length === 0) return [];
    const frame = shown.filter((it) => it.sent <= this.event).at(-1) ?? shown[0];
    const { hex } = this.run.said(frame.wireLine);
    if (!hex) return [html("p", { class: "hint" }, "The bytes are there where the schedule has the line frames.")];
    const bytes = bytesOf(hex);
    return [html("section", {}, html("h3", {}, `The bytes of frame ${frame.number}, ${bytes.length} of them`),
      html("dl", { class: "facts" }, ...headOf(bytes).flatMap(([name, value]) => [html("dt", {}, name), html("dd", {}, value)])),
      html("pre", { class: "bytes" }, dumped(bytes)))];
  }
}
