"use strict";
// What the page does around libdixpi: it reads files, calls the library's exports on its memory, and writes what they
// answer. Nothing here is proved. Pointers and lengths of the module are BigInt, as its memory has 64-bit addresses.

const OK = 0, DIFFERS = 1, BAD_LENGTH = 3, BAD_OPCODE = 4;
const GUARD = 2, APP = 4, REF = 8;
const CHECKS = { [GUARD]: "guard", [APP]: "application tag", [REF]: "reference tag" };
const PIECE = 1 << 20, MOST_SHOWN = 200, MOST_LINES = 10000;
const KEYS = ["no sense", "recovered error", "not ready", "medium error", "hardware error", "illegal request",
  "unit attention", "data protect", "blank check", "vendor specific", "copy aborted", "aborted command", "reserved",
  "volume overflow", "miscompare", "completed"];
const CODES = {
  "0c00": "write error", "1000": "ID CRC or ECC error", "1001": "logical block guard check failed",
  "1002": "logical block application tag check failed", "1003": "logical block reference tag check failed",
  "1100": "unrecovered read error", "2000": "invalid command operation code",
  "2100": "logical block address out of range", "2400": "invalid field in CDB", "2900": "power on, reset, or bus device reset",
};
const OPS = { 0x28: "READ(10)", 0x2a: "WRITE(10)", 0x2f: "VERIFY(10)", 0x88: "READ(16)", 0x8a: "WRITE(16)",
  0x8f: "VERIFY(16)", 0x7f09: "READ(32)", 0x7f0b: "WRITE(32)", 0x9e10: "READ CAPACITY(16)" };

const hex = (number, digits) => number.toString(16).padStart(digits, "0");
const spaced = bytes => Array.from(bytes, it => hex(it, 2)).join(" ");

// The library over its module: places of its own behind the module's memory hold structs, the blocks of a piece, and
// other bytes.
class Library {
  constructor(exports) {
    this.exports = exports;
    this.structs = exports.memory.buffer.byteLength;
    exports.memory.grow(BigInt(1 + Math.ceil((2 * PIECE) / 65536)));
    this.piece = this.structs + 65536;
    this.bytes = this.piece + PIECE;
    this.view = new DataView(exports.memory.buffer);
  }
  putPiece(blocks) { new Uint8Array(this.exports.memory.buffer, this.piece).set(blocks); }
  put(bytes) { new Uint8Array(this.exports.memory.buffer, this.bytes).set(bytes); }
  numbers(at, ...words) { words.forEach((it, i) => this.view.setUint32(this.structs + at + 4 * i, it, true)); }
  at(offset) { return BigInt(this.structs + offset); }
  get start() { return BigInt(this.bytes); }

  crc16(bytes) { this.put(bytes); return this.exports.dixpi_crc16(this.start, BigInt(bytes.length)); }
  sum(bytes) { this.put(bytes); return this.exports.dixpi_ip_sum(this.start, BigInt(bytes.length)); }

  // The first block of the piece, from `from` on, that differs: undefined where none does.
  differing(length, layout, firstTag, from) {
    this.numbers(0, layout.size, layout.meta, layout.at, layout.type, 0);
    this.numbers(32, firstTag, 0, layout.type === 3 ? GUARD : GUARD + REF);
    const status = this.exports.dixpi_verify_from(BigInt(this.piece), BigInt(length), this.at(0), this.at(32), BigInt(from), this.at(64));
    if (status === OK) return undefined;
    if (status !== DIFFERS) throw new Error("no layout: the tuple's eight bytes end within the metadata, sizes are numbers");
    const found = this.structs + 64;
    return { block: Number(this.view.getBigUint64(found, true)), check: this.view.getUint32(found + 8, true),
      wanted: this.view.getUint32(found + 12, true), has: this.view.getUint32(found + 16, true) };
  }
  sense(bytes) {
    this.put(bytes);
    if (this.exports.dixpi_sense_find(this.start, BigInt(bytes.length), this.at(128), this.at(160)) !== OK) return undefined;
    const at = this.structs + 128, byte = i => this.view.getUint8(at + i);
    return { info: this.view.getBigUint64(at, true), key: byte(8), asc: byte(9), ascq: byte(10), hasInfo: byte(11),
      deferred: this.view.getUint32(this.structs + 160, true), check: this.exports.dixpi_sense_check(this.at(128), this.at(164)) };
  }
  command(bytes) {
    this.put(bytes);
    const status = this.exports.dixpi_cdb_decode(this.start, BigInt(bytes.length), this.at(192));
    if (status !== OK) return { status };
    const at = this.structs + 192, word = i => this.view.getUint32(at + i, true);
    return { status, lba: this.view.getBigUint64(at, true), op: word(8), n: word(12), ref: word(16),
      app: this.view.getUint16(at + 20, true), mask: this.view.getUint16(at + 22, true), protect: word(24), flags: word(28) };
  }
}

// ---- a dump

// The tuple of a block, by its eight bytes.
function tupleOf(frame, layout) {
  const at = layout.size + layout.at, view = new DataView(frame.buffer, frame.byteOffset + at, 8);
  return { guard: view.getUint16(0), app: view.getUint16(2), ref: view.getUint32(4) };
}
const isEscape = (tuple, type) => tuple.app === 0xffff && (type !== 3 || tuple.ref === 0xffffffff);
const lowWord = address => Number(BigInt(address) & 0xffffffffn);

// The line of a bad block, as `dixlab check` writes it.
function lineOf(library, frame, layout, address, found) {
  const tuple = tupleOf(frame, layout);
  const guard = library.crc16(frame.subarray(0, layout.size + layout.at));
  const ref = layout.type === 3 ? "-" : hex(lowWord(address), 8);
  return `0 ${address} have ${hex(tuple.guard, 4)} ${hex(tuple.app, 4)} ${hex(tuple.ref, 8)} want ${hex(guard, 4)} ${ref} ` +
    (found.check === GUARD ? "guard" : "ref");
}

// Checks a file piece by piece: what stands at fault, in order, and the counts.
async function checked(library, file, layout) {
  const frame = layout.size + layout.meta, blocks = Math.floor(file.size / frame);
  const each = Math.max(1, Math.floor(PIECE / frame));
  library.differing(0, layout, 0, 0); // (what is no layout is refused before a byte is read)
  const result = { lines: [], shown: [], blocks, bad: 0, unchecked: 0, rest: file.size % frame, frame, tags: 0, shift: 0, same: 0 };
  for (let first = 0; first < blocks; first += each) {
    const count = Math.min(each, blocks - first);
    const bytes = new Uint8Array(await file.slice(first * frame, (first + count) * frame).arrayBuffer());
    const address = layout.first + BigInt(first);
    for (let i = 0; i < count; i++) {
      if (isEscape(tupleOf(bytes.subarray(i * frame, (i + 1) * frame), layout), layout.type)) result.unchecked++;
    }
    library.putPiece(bytes);
    for (let from = 0; from < count;) {
      const found = library.differing(bytes.length, layout, lowWord(address), from);
      if (!found) break;
      note(library, bytes.subarray(found.block * frame, (found.block + 1) * frame), layout, address + BigInt(found.block), found, result);
      from = found.block + 1;
    }
  }
  return result;
}

function note(library, frame, layout, address, found, result) {
  result.bad++;
  if (result.lines.length < MOST_LINES) result.lines.push(lineOf(library, frame, layout, address, found));
  if (result.shown.length < MOST_SHOWN) result.shown.push({ address, frame: frame.slice(), found });
  if (found.check === REF) {
    const shift = (found.has - found.wanted) >>> 0;
    if (result.tags++ === 0) result.shift = shift;
    if (shift === result.shift) result.same++;
  }
}

// Where two bad reference tags or more, and more than half of them, are off by one number, that of the first: what it is.
function shiftLine(result, layout) {
  if (result.same < 2 || 2 * result.same <= result.tags) return undefined;
  const way = 2 * result.shift <= 2 ** 32 ? `${result.shift} higher` : `${2 ** 32 - result.shift} lower`;
  return `most reference tags are ${way}: is the first one ${lowWord(layout.first + BigInt(result.shift))}?`;
}

// What `dixlab check` writes of this dump.
function told(result, layout) {
  const lines = result.lines.slice();
  if (result.bad > lines.length) lines.push(`.. and ${result.bad - lines.length} more`);
  lines.push(`checked ${result.blocks} bad ${result.bad} unchecked ${result.unchecked}`);
  const shift = shiftLine(result, layout);
  if (shift !== undefined) lines.push(shift);
  if (result.rest) lines.push(`the dump ends within a block: ${result.rest} of ${result.frame} bytes`);
  return lines.join("\n");
}

// ---- bytes that are typed

function bytesOf(text) {
  const digits = text.replace(/0x/gi, "").replace(/[\s,:]+/g, "");
  if (!digits || digits.length % 2 || /[^0-9a-f]/i.test(digits)) return undefined;
  return Uint8Array.from(digits.match(/../g), it => parseInt(it, 16));
}

function senseWords(sense) {
  const code = hex(sense.asc, 2) + hex(sense.ascq, 2);
  const about = sense.hasInfo ? `, information ${sense.info}` : "";
  const by = sense.check ? `: the ${CHECKS[sense.check]} differs` : "";
  return `sense: key ${sense.key.toString(16)}h ${KEYS[sense.key]}, ${code.slice(0, 2)}h/${code.slice(2)}h ${CODES[code] || "another code"}` +
    `${about}${sense.deferred ? ", of an earlier command" : ""}${by}`;
}

function commandWords(c) {
  if (c.op === 0x9e10) return `command: READ CAPACITY(16), room for ${c.n} bytes`;
  const tags = c.op === 0x7f09 || c.op === 0x7f0b ? `, expects tags from ${hex(c.ref, 8)}, application tag ${hex(c.app, 4)} in ${hex(c.mask, 4)}` : "";
  const flags = (c.flags & 8 ? ", FUA" : "") + (c.flags & 16 ? ", DPO" : "");
  return `command: ${OPS[c.op]} of ${c.n} blocks from ${c.lba} on, protect field ${c.protect.toString(2).padStart(3, "0")}b${tags}${flags}`;
}

function wordsOf(library, text) {
  if (!text.trim()) return "";
  const bytes = bytesOf(text);
  if (!bytes) return "hexadecimal digits are wanted, two a byte";
  if (bytes.length > PIECE) return "too many bytes";
  const lines = [`${bytes.length} bytes: CRC ${hex(library.crc16(bytes), 4)}, Internet checksum ${hex(library.sum(bytes), 4)}`];
  const sense = library.sense(bytes), command = library.command(bytes);
  if (sense) lines.push(senseWords(sense));
  if (command.status === OK) lines.push(commandWords(command));
  else if (!sense && command.status === BAD_LENGTH) lines.push("no sense; a command of this operation code has another length");
  else if (!sense && command.status !== BAD_OPCODE) lines.push("no sense; a command with a field that is not served");
  return lines.join("\n");
}

// ---- the page

const $ = id => document.getElementById(id);

function layoutOf() {
  const number = id => { const it = $(id).value.trim(); if (!/^\d+$/.test(it)) throw new Error(`${id}: a number is wanted`); return it; };
  return { size: Number(number("size")), meta: Number(number("meta")), at: Number(number("at")), type: Number($("type").value), first: BigInt(number("first")) };
}

function span(text, name) {
  const it = document.createElement("span");
  it.className = name;
  it.textContent = text;
  return it;
}

// A bad block: the last bytes of its data, and its tuple with what differs.
function drawn({ address, frame, found }, layout) {
  const pre = document.createElement("pre"), tuple = layout.size + layout.at;
  const bad = { [GUARD]: "guard", [REF]: "ref" }[found.check];
  pre.append(`block ${address}: .. ${spaced(frame.subarray(Math.max(0, tuple - 16), tuple))} `);
  for (const [name, from, to] of [["guard", 0, 2], ["app", 2, 4], ["ref", 4, 8]]) {
    pre.append(span(spaced(frame.subarray(tuple + from, tuple + to)), name + (name === bad ? " bad" : "")), " ");
  }
  const digits = found.check === REF ? 8 : 4;
  pre.append(`\n${CHECKS[found.check]} wanted ${hex(found.wanted, digits)}, has ${hex(found.has, digits)}`);
  return pre;
}

async function show(library, file) {
  $("blocks").replaceChildren();
  $("found").textContent = `${file.name || "dump"}: reads ${file.size} bytes`;
  try {
    const layout = layoutOf();
    if (!(layout.size + layout.meta > 0)) throw new Error("a block has no bytes");
    if (layout.size + layout.meta > PIECE) throw new Error("a block of more than a megabyte");
    const result = await checked(library, file, layout);
    $("found").textContent = told(result, layout);
    $("blocks").replaceChildren(...result.shown.map(it => drawn(it, layout)));
  } catch (error) {
    $("found").textContent = String(error.message || error);
  }
}

// A link may carry settings, and a small dump in base64: page.html#type=1&first=100&dump=...
function fromLink(library) {
  const words = new URLSearchParams(location.hash.slice(1));
  for (const id of ["size", "meta", "at", "type", "first", "bytes"]) if (words.has(id)) $(id).value = words.get(id);
  if (words.has("bytes")) $("words").textContent = wordsOf(library, $("bytes").value);
  if (!words.has("dump")) return undefined;
  return new Blob([Uint8Array.from(atob(words.get("dump").replace(/ /g, "+")), it => it.charCodeAt(0))]);
}

async function begin() {
  const bytes = Uint8Array.from(atob(MODULE), it => it.charCodeAt(0));
  const library = new Library((await WebAssembly.instantiate(bytes, {})).instance.exports);
  let file = fromLink(library);
  const again = () => file && show(library, file);
  $("file").onchange = () => { file = $("file").files[0]; again(); };
  $("preset").onchange = () => {
    const words = $("preset").value.split(",");
    if (words.length === 3) ["size", "meta", "at"].forEach((id, i) => { $(id).value = words[i]; });
    again();
  };
  for (const id of ["size", "meta", "at", "type", "first"]) $(id).onchange = again;
  $("bytes").oninput = () => { $("words").textContent = wordsOf(library, $("bytes").value); };
  $("drop").ondragover = event => { event.preventDefault(); $("drop").className = "over"; };
  $("drop").ondragleave = () => { $("drop").className = ""; };
  document.body.ondragover = event => event.preventDefault();
  document.body.ondrop = event => {
    event.preventDefault();
    $("drop").className = "";
    if (event.dataTransfer.files.length) { file = event.dataTransfer.files[0]; again(); }
  };
  await again();
  document.body.dataset.ready = "yes";
}

begin().catch(error => {
  $("found").textContent = `This browser can't run the library: it needs WebAssembly with 64-bit memory (Chrome 133, Firefox 134 or newer). ${error}`;
});
