// What the bytes of a frame say: its head in words, and all of them in hex.

const FRAME_KINDS = { "1.1": "packet", "1.2": "advert", "1.3": "ask", "2.1": "packet", "2.2": "advert", "2.4": "packet with a handler" };

export function bytesOf(hex) {
  return Uint8Array.from(hex.match(/../g) ?? [], (pair) => Number.parseInt(pair, 16));
}

/** Reads numbers and names from the left; a field that isn't whole throws a RangeError. */
class Fields {
  constructor(bytes) {
    this.bytes = bytes;
    this.view = new DataView(bytes.buffer, bytes.byteOffset, bytes.byteLength);
    this.at = 0;
  }

  number(size) {
    const at = this.at;
    this.at += size;
    if (size === 8) return this.view.getBigUint64(at);
    if (size === 4) return this.view.getUint32(at);
    return size === 2 ? this.view.getUint16(at) : this.view.getUint8(at);
  }

  name() {
    const length = this.number(1);
    const text = String.fromCharCode(...this.bytes.subarray(this.at, this.at + length));
    this.at += length;
    return text;
  }
}

function advertRows(fields) {
  const rows = [["of host", `@${fields.number(4)}`]];
  const count = fields.number(2);
  for (let row = 0; row < count; row += 1) rows.push([`to @${fields.number(4)}`, `cost ${fields.number(4)}`]);
  return rows;
}

function packetRows(fields, hasHandler) {
  const rows = [["family", `${fields.number(4)}.${fields.number(8)}`], ["destination", `@${fields.number(4)}`],
    ["bound", String(fields.number(4))], ["route", fields.name()]];
  if (hasHandler) rows.push(["handler", fields.name()]);
  return rows;
}

/** The head of a frame as pairs of a name and a text; what isn't whole ends it. */
export function headOf(bytes) {
  const fields = new Fields(bytes);
  const rows = [];
  try {
    if (fields.number(4) !== 0x504c414e) return [["magic", "not PLAN"]];
    const [version, kind] = [fields.number(1), fields.number(1)];
    rows.push(["kind", `${FRAME_KINDS[`${version}.${kind}`] ?? `unknown ${kind}`}, version ${version}`]);
    if (version === 2) rows.push(["stamp", `boot ${fields.number(8)} link ${fields.number(8)}`]);
    if (kind === 2) rows.push(...advertRows(fields));
    else if (kind === 3) rows.push(["bound", String(fields.number(4))]);
    else rows.push(...packetRows(fields, kind === 4));
    if (kind !== 2) rows.push(["chunk", `${bytes.length - fields.at} bytes from byte ${fields.at}`]);
  } catch (fault) {
    if (!(fault instanceof RangeError)) throw fault;
    rows.push(["fault", `the bytes end at ${bytes.length}`]);
  }
  return rows;
}

/** Lines of 16 bytes: the place, the bytes in hex, and those that are printable in ASCII. */
export function dumped(bytes) {
  const lines = [];
  for (let at = 0; at < bytes.length; at += 16) {
    const part = [...bytes.subarray(at, at + 16)];
    const hex = part.map((byte) => byte.toString(16).padStart(2, "0")).join(" ");
    const text = part.map((byte) => (byte > 31 && byte < 127 ? String.fromCharCode(byte) : "·")).join("");
    lines.push(`${String(at).padStart(5)}  ${hex.padEnd(47)}  ${text}`);
  }
  return lines.join("\n");
}
