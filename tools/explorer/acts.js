// What each kind of line does to the run that is being made.

const STALE = new Set(["Repeated", "TooOld"]);

/** A visit ends, and with it its packet. */
function endVisit(run, said, event, how, words) {
  const packet = run.subject(said, event);
  const evals = said.evals ?? 0;
  packet.visit = { host: said.host, event: run.event, line: run.lineNumber, notes: event.notes, evals, left: said.left, how, words };
  run.endPacket(packet, how, words);
  event.visited = packet;
  event.paid += evals + said.left;
  run.accounts.add(packet.family, "evals", evals);
  run.accounts.add(packet.family, "left", said.left);
}

/** What was taken before is counted once: only where it was never handed, or is forged, its bound is left here. */
function dropStale(run, said, event) {
  const packet = event.forged ?? event.packet;
  if (event.frame) run.noteFrame(event.frame);
  if (!packet) return;
  run.accounts.add(packet.family, "left", said.bound);
  run.endPacket(packet, "drop", said.reason);
}

/** By the kinds of the table of forms. Each takes the run so far, what the line says, and what is known of its event. */
export const ACTS = {
  inject(run, said, event) {
    event.packet = run.newPacket("injected", run.noted.family, said.bound, said.host);
    run.noted.packet = event.packet.index;
    run.accounts.add(event.packet.family, "granted", said.bound);
  },

  forged(run, said, event) {
    event.forged = run.newPacket("forged", run.noted.family, said.bound, said.host);
    run.noted.packet = event.forged.index;
    run.accounts.add(event.forged.family, "granted", said.bound);
  },

  arrive(run, said, event) {
    event.isArrival = true;
    const { frame } = event;
    if (event.forged) run.noted.packet = event.forged.index;
    if (!frame) {
      event.came.push(run.lineNumber);
      return;
    }
    run.noteFrame(frame);
    event.isFirst = frame.handings === null;
    (frame.handings ??= []).push(run.event);
    if (!frame.isUnknown) run.learnLink(frame, said.host, said.device);
    if (frame.packet >= 0 && event.isFirst) {
      event.packet = run.packets[frame.packet];
      run.accounts.add(event.packet.family, "live", -frame.bound);
    }
  },

  arrive_control(run, said, event) {
    event.isControl = true;
  },

  print(run, said, event) {
    event.notes.push(run.lineNumber);
    if (event.packet ?? event.forged) run.noted.packet = (event.packet ?? event.forged).index;
  },

  port(run, said, event) {
    ACTS.print(run, said, event);
  },

  value(run, said, event) {
    endVisit(run, said, event, "value", said.value);
  },

  raised(run, said, event) {
    endVisit(run, said, event, "raised", said.exception);
  },

  spent(run, said, event) {
    endVisit(run, said, event, "spent", "");
  },

  handler(run, said, event) {
    event.handler = said;
    if (event.visited) run.noted.packet = event.visited.index;
  },

  queue(run, said, event) {
    const packet = run.moving(said, event);
    run.noted.packet = packet.index;
    event.paid += said.bound + 1;
    run.enqueue(run.newFrame(said.host, said.device, packet, said.bound));
    run.accounts.add(packet.family, "hops", 1);
    run.accounts.add(packet.family, "live", said.bound);
  },

  drop(run, said, event) {
    if (STALE.has(said.reason)) {
      dropStale(run, said, event);
      return;
    }
    const packet = run.moving(said, event);
    event.paid += said.bound;
    run.accounts.add(packet.family, "left", said.bound);
    run.endPacket(packet, "drop", said.reason);
  },

  drop_advert(run, said, event) {
    if (event.frame) run.noteFrame(event.frame);
  },

  drop_bytes(run, said, event) {
    if (event.frame) run.noteFrame(event.frame);
  },

  tick(run, said) {
    const host = run.hosts.get(said.host);
    host.ticks.push(run.event);
    host.clock.push(said.now);
  },

  advert(run, said) {
    run.enqueue(run.newFrame(said.host, said.device, null, 0));
  },

  heard(run, said, event) {
    if (event.frame) run.noteFrame(event.frame);
  },

  send(run, said, event) {
    event.sent = run.dequeue(said.host, said.device, run.noted.family);
    event.sent.sendLine = run.lineNumber;
    run.noteFrame(event.sent);
  },

  send_advert(run, said, event) {
    ACTS.send(run, said, event);
  },

  wire(run, said, event) {
    if (!event.sent) {
      run.missing();
      return;
    }
    const frame = event.sent;
    event.isOnWire = true;
    frame.number = said.frame;
    frame.on = run.event;
    frame.wireLine = run.lineNumber;
    run.wire.set(said.frame, frame);
    run.wireOrder.push(frame.index);
    run.noteFrame(frame);
    run.noted.host = frame.host;
  },

  off(run, said, event) {
    event.frame = run.onWire(said.frame);
    if (!event.frame) return;
    event.frame.off = run.event;
    run.wire.delete(said.frame);
  },

  again(run, said, event) {
    event.frame = run.onWire(said.frame);
  },

  lost(run, said, event) {
    const { frame } = event;
    if (!frame) return;
    frame.lost = run.event;
    run.noteFrame(frame);
    if (frame.packet < 0 || frame.handings) return;
    const packet = run.packets[frame.packet];
    run.accounts.add(packet.family, "live", -frame.bound);
    run.accounts.add(packet.family, "left", said.bound);
    run.endPacket(packet, "lost", "");
  },

  lost_advert(run, said, event) {
    if (event.frame) event.frame.lost = run.event;
    if (event.frame) run.noteFrame(event.frame);
  },
};
