// The signs of kinds of lines and of frames: each has a form of its own, so that nobody needs the colours.
import { svg } from "./dom.js";

const DIAMOND = "M6 .5 11.5 6 6 11.5.5 6Z";
const PATHS = {
  inject: { fill: "M6 1 11.5 11H.5Z" },
  forged: { line: "M6 1.5 11 10.5H1ZM6 5v2.5M6 9v.6" },
  arrive: { line: "M.5 6H8M5 3 8 6 5 9M11 1V11" },
  print: { line: "M1 1.5H11V8H6L3 11V8H1Z" },
  value: { fill: "M6 .8A5.2 5.2 0 1 1 6 11.2 5.2 5.2 0 0 1 6 .8Z" },
  raised: { fill: DIAMOND },
  spent: { fill: "M1 1H11V11H1Z" },
  handler: { line: "M2.5 11.5V1H10.5L8 4 10.5 7H2.5" },
  queue: { line: "M1 2.5H11M1 6H11M1 9.5H11" },
  drop: { line: "M1 1H11V11H1ZM3 3 9 9M9 3 3 9" },
  send: { line: "M1 1V11M4 6H11M8 3 11 6 8 9" },
  wire: { line: "M.5 6Q3.2 0 6 6T11.5 6" },
  off: { line: "M.5 4Q3.2 0 6 4T11.5 4M6 5V11M3.5 8.5 6 11 8.5 8.5" },
  again: { line: "M10.5 6A4.5 4.5 0 1 1 8.5 2.3M8.5.2V2.8H11" },
  lost: { line: "M1.5 1.5 10.5 10.5M10.5 1.5 1.5 10.5" },
  tick: { line: "M6 .8A5.2 5.2 0 1 1 6 11.2 5.2 5.2 0 0 1 6 .8ZM6 3V6L8 8" },
  advert: { line: DIAMOND },
  heard: { line: `${DIAMOND}M6 4.5A1.5 1.5 0 1 1 6 7.5 1.5 1.5 0 0 1 6 4.5Z` },
  nothing: { line: "M2 6H10" },
};
const SAME = {
  arrive_control: "arrive", port: "print", drop_advert: "drop", drop_bytes: "drop", drop_injection: "drop", drop_step: "drop",
  send_advert: "send", lost_advert: "lost",
};

/** The word that lines of a kind begin with. */
export function wordOf(kind) {
  return kind === "port" ? "port" : SAME[kind] ?? kind;
}

/** The words that lines begin with, in the order in which a choice lists them. */
export const WORDS = [...Object.keys(PATHS), "port"];

/** The sign of a kind of line, 12 units wide. */
export function signOf(kind, size = 12) {
  const path = PATHS[SAME[kind] ?? kind] ?? PATHS.nothing;
  return svg(
    "svg",
    { class: `sign sign-${wordOf(kind)}`, viewBox: "0 0 12 12", width: size, height: size, "aria-hidden": "true" },
    svg("path", path.fill ? { d: path.fill, class: "full" } : { d: path.line, class: "line" }),
  );
}

const MARKS = {
  packet: "M0-4.5A4.5 4.5 0 1 1 0 4.5 4.5 4.5 0 0 1 0-4.5Z",
  handler: "M0-5.2 5 4H-5Z",
  forged: "M-4.2-4.2H4.2V4.2H-4.2Z",
  advert: "M0-4.6 4.6 0 0 4.6-4.6 0Z",
};

/** The form of a frame's mark around its middle: by what it carries. */
export function markPath(run, frame) {
  if (frame.packet < 0) return MARKS.advert;
  const { kind } = run.packets[frame.packet];
  return MARKS[kind === "handler" || kind === "forged" ? kind : "packet"];
}

/** The forms of marks with what they mean, for the legend. */
export const LEGEND = [
  ["packet", MARKS.packet],
  ["a handler's packet", MARKS.handler],
  ["forged packet", MARKS.forged],
  ["advert", MARKS.advert],
];
