// What the page says of packets and frames.
import { NEVER } from "./columns.js";

const BEGINNINGS = {
  injected: "injected", forged: "forged", entered: "came from outside", sent: "sent by a visit", handler: "sent to the handler",
  unknown: "of lines that are missing",
};

export function beginning(packet) {
  return `${BEGINNINGS[packet.kind]} at @${packet.host}, bound ${packet.bound}`;
}

/** The end of a packet in words. */
export function ending(run, packet) {
  const { how, words, event } = packet.end;
  const at = packet.visit ? ` at @${packet.visit.host}` : "";
  const told = {
    value: `value ${words}${at}`, raised: `raised ${words}${at}`, spent: `work spent${at}`, drop: `dropped: ${words}`, lost: "lost on the wire",
  };
  return `${told[how]}, event ${run.number(event)}`;
}

/** The end of a frame's way: the host behind its device, where the trace shows it. */
function towards(run, frame) {
  const far = run.otherEnd(frame.host, frame.device);
  return `@${frame.host} → ${far ? `@${far.host}` : "?"}`;
}

/** Where a packet is after an event. */
export function whereabouts(run, packet, event) {
  const { state, frame, place } = run.packetAt(packet, event);
  if (state === "later") return `not yet: event ${run.number(packet.born)}`;
  if (state === "ended") return ending(run, packet);
  if (state === "queue") return `queued @${frame.host} %${frame.device}, place ${place}, bound ${frame.bound}`;
  if (state === "wire") return `on the wire as frame ${frame.number}, ${towards(run, frame)}, bound ${frame.bound}`;
  if (state === "copy") return `handed over, and a copy stays on the wire as frame ${frame.number}`;
  if (state === "outside") return `sent outside on @${frame.host} %${frame.device}, bound ${frame.bound}`;
  return frame ? `no line tells where, since frame ${frame.number} left` : "no line tells where";
}

/** The way of one frame as rows of event and words. */
export function steps(run, frame) {
  const found = [];
  const add = (event, text) => event !== NEVER && found.push({ event, text });
  add(frame.queued, `queued @${frame.host} %${frame.device}${frame.packet < 0 ? "" : `, bound ${frame.bound}`}`);
  if (frame.outside !== NEVER) add(frame.outside, `sent outside on @${frame.host} %${frame.device}`);
  else if (frame.on !== NEVER) add(frame.on, `on the wire as frame ${frame.number}, ${towards(run, frame)}`);
  else add(frame.sent, "sent");
  for (const handing of frame.handings ?? []) {
    const stays = handing !== frame.off;
    add(handing, `arrived at @${frame.far?.host ?? "?"} %${frame.far?.device ?? "?"}${stays ? ", and a copy stays on the wire" : ""}`);
  }
  add(frame.lost, frame.handings ? "the copy on the wire was lost" : "lost on the wire");
  return found;
}
