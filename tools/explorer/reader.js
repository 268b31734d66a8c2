// Reads the text of a trace line by line, by the table of forms that the other tools read too.
import { FORMS } from "./forms.js";

export const LONGEST = 64 * 1024 * 1024;
const HEAD = "planet trace 1";
const U32 = 0xffffffff;
const SHORT = new Set(["host", "device"]);

/** Why a whole file is refused, in words. */
export class Refusal extends Error {}

function quoted(text) {
  return text.replace(/[.*+?^${}()|[\]\\]/g, "\\$&");
}

function fieldOf(word) {
  const [name, type = name] = word.slice(1, -1).split(":");
  const form = FORMS.types[type];
  const body = form.words ? form.words.map(quoted).join("|") : form.pattern;
  return { name, as: form.as, short: SHORT.has(type), pattern: `${quoted(form.mark ?? "")}(${body})` };
}

/** A form of the table, made ready to take lines apart. */
function compiled(form) {
  const words = form.line.split(" ").map((word) => (word.startsWith("{") ? fieldOf(word) : quoted(word)));
  const pattern = words.map((word) => word.pattern ?? word).join(" ");
  return {
    kind: form.kind,
    fields: words.filter((word) => word.name),
    pattern: new RegExp(`^${pattern}$`),
  };
}

function eventForms() {
  const byWord = new Map();
  for (const form of FORMS.files.trace.filter((it) => it.part === "event")) {
    const word = form.line.split(" ")[1];
    byWord.set(word, [...(byWord.get(word) ?? []), compiled(form)]);
  }
  return byWord;
}

const EVENTS = eventForms();
const ROW = compiled(FORMS.files.trace.find((it) => it.kind === "row"));

/** The kinds of lines that events have, in the order of the table. */
export const KINDS = [...new Set([...EVENTS.values()].flat().map((form) => form.kind))];

function taken(form, line) {
  const found = form.pattern.exec(line);
  if (!found) return null;
  const said = { kind: form.kind };
  for (let place = 0; place < form.fields.length; place += 1) {
    const field = form.fields[place];
    const text = found[place + 1];
    said[field.name] = field.as === "number" ? Number(text) : text;
    if (field.as === "number" && said[field.name] > (field.short ? U32 : Number.MAX_SAFE_INTEGER)) return null;
  }
  return said;
}

/** What a line of an event says, or null where it is none. */
export function readLine(line) {
  const first = line.indexOf(" ");
  if (first < 1) return null;
  const second = line.indexOf(" ", first + 1);
  const forms = EVENTS.get(second < 0 ? line.slice(first + 1) : line.slice(first + 1, second));
  for (const form of forms ?? []) {
    const said = taken(form, line);
    if (said) return said;
  }
  return null;
}

function refuseHead(first) {
  const kind = /^planet (schedule|log|node|audit|port|cut|fleet|inject) /.exec(first)?.[1];
  if (kind === "schedule" || kind === "log") {
    throw new Refusal(`this is a ${kind} and not its trace; make that with: ./planet replay FILE`);
  }
  if (kind === "audit") {
    throw new Refusal("this is the file of an audit; make a page of its fleet with: tools/explore FILE");
  }
  throw new Refusal(`this is no trace: its first line isn't "${HEAD}"`);
}

/** Where each line of a text begins, and behind the last one the length. What follows the last line feed is a line where it isn't empty. */
function lineStarts(text) {
  const starts = [0];
  for (let at = text.indexOf("\n"); at >= 0; at = text.indexOf("\n", at + 1)) starts.push(at + 1);
  if (starts[starts.length - 1] !== text.length) starts.push(text.length + 1);
  return Uint32Array.from(starts);
}

/** Takes lines one after the other: first events, then the ledger, then the end. */
class Stages {
  constructor(sink) {
    this.sink = sink;
    this.stage = "events";
    this.event = 0;
  }

  /** Takes a line, and answers whether it may stand here. */
  take(line, number) {
    if (this.stage === "events") return this.takeEvent(line, number);
    if (this.stage === "ledger") return this.takeRow(line);
    return false;
  }

  takeEvent(line, number) {
    if (line === "ledger" || line === "end") {
      this.stage = line;
      if (line === "ledger") this.sink.beginLedger();
      return true;
    }
    const said = readLine(line);
    if (!said || said.event < Math.max(1, this.event)) return false;
    this.event = said.event;
    this.sink.add(said, number);
    return true;
  }

  takeRow(line) {
    if (line === "end") {
      this.stage = "end";
      return true;
    }
    const row = taken(ROW, line);
    if (row) this.sink.addRow(row);
    return row !== null;
  }
}

/** The text of a trace with the places of its lines. Lines are counted from 1, as in files. */
export class TraceText {
  constructor(text) {
    this.text = text;
    this.starts = lineStarts(text);
    this.count = this.starts.length - 1;
  }

  line(number) {
    return this.text.slice(this.starts[number - 1], this.starts[number] - 1);
  }

  /** The number of the line that a place of the text belongs to. */
  numberAt(place) {
    let low = 0;
    let high = this.count;
    while (high - low > 1) {
      const middle = (low + high) >> 1;
      if (this.starts[middle] <= place) low = middle;
      else high = middle;
    }
    return low + 1;
  }
}

/**
 * Reads a trace, and hands what its lines say to the sink. Answers its text, and a fault where a line may not stand where it
 * stands: the lines before it were handed on, up to the end where it is whole. A text that is no trace at all is refused.
 */
export function readTrace(text, sink) {
  if (text.length === 0) throw new Refusal("the file is empty");
  if (text.length > LONGEST) throw new Refusal("the file has more than 64 MB");
  const lines = new TraceText(text);
  if (lines.line(1) !== HEAD) refuseHead(lines.line(1).slice(0, 200));
  const stages = new Stages(sink);
  for (let number = 2; number <= lines.count; number += 1) {
    if (!stages.take(lines.line(number), number)) {
      return { lines, isWhole: stages.stage === "end", fault: { number, text: lines.line(number), what: "is no line that a trace has there" } };
    }
  }
  const isWhole = stages.stage === "end";
  return { lines, isWhole, fault: isWhole ? null : { number: lines.count + 1, text: "", what: 'is missing: a trace ends with the line "end"' } };
}

/** The text of bytes, and behind it the number of the line that isn't UTF-8, if there is one: the text then ends before that line. */
export function decoded(bytes) {
  if (bytes.byteLength > LONGEST) throw new Refusal("the file has more than 64 MB");
  const strict = new TextDecoder("utf-8", { fatal: true, ignoreBOM: true });
  try {
    return { text: strict.decode(bytes), broken: 0 };
  } catch {
    return decodedLines(new Uint8Array(bytes), strict);
  }
}

function decodedLines(bytes, strict) {
  let text = "";
  let number = 1;
  for (let at = 0; at < bytes.length; number += 1) {
    const stop = bytes.indexOf(10, at);
    const end = stop < 0 ? bytes.length : stop + 1;
    try {
      text += strict.decode(bytes.subarray(at, end));
    } catch {
      break;
    }
    at = end;
  }
  if (number === 1) throw new Refusal("this is no trace: its first line isn't UTF-8");
  return { text, broken: number };
}
