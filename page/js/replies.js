// Replies as columns of numbers: of each line of the text which line of the trace it answers, and each receipt in it.
// A long run has two million receipts, so no object is made for any of them.

import { MOST_ENTRIES } from "./limits.js";

// The answers of receipts; a receipt's column has the place in this list.
export const ANSWERS =
  "entered taken removed protected was read notfound nomatch denied masked at worn".split(" ");
const IS_CHANGE = ANSWERS.map((answer) => ["entered", "removed", "protected", "was"].includes(answer));
const ON_WINDOWS = new Set(["H_PUT_TCE", "H_GET_TCE", "dmaread", "dmawrite"]);
const COMMIT = "H_RESIZE_HPT_COMMIT";
const [LF, SPACE, DOT, ZERO, BAR] = [10, 32, 46, 48, 124];
const decoder = new TextDecoder();
const REFERENCED = 2;
const CHANGED = 1;
// What a reply of the program stays far below. A text to judge may have anything.
const MOST_HEAD = 4_096; // bytes in front of the receipts
const MOST_CALLS = 256; // names
const LONGEST_CALL = 40; // letters
const MOST_NUMBER = 2 ** 32 - 1; // also stands for larger ones

// Columns of numbers that are as long as each other, and grow together.
class Columns {
  constructor(types, room) {
    this.room = room;
    this.length = 0;
    this.names = Object.keys(types);
    for (const [name, Type] of Object.entries(types)) this[name] = new Type(room);
  }

  // The place of a new row, which has zeros.
  add() {
    if (this.length === this.room) this.grow();
    this.length += 1;
    return this.length - 1;
  }

  grow() {
    this.room *= 2;
    for (const name of this.names) {
      const longer = new this[name].constructor(this.room);
      longer.set(this[name]);
      this[name] = longer;
    }
  }

  done() {
    const isFull = this.length === this.room;
    return Object.fromEntries(this.names.map((name) => [name, isFull ? this[name] : this[name].slice(0, this.length)]));
  }
}

// Of each line of the text: `of` is the line of the trace, 0 where the text's line belongs to the reply above it, and
// `first` its first receipt. All receipts of a reply are of one processor, one call and one table, and of a DMA window
// all or none.
const OF_LINES = {
  of: Uint32Array,
  part: Uint8Array,
  first: Uint32Array,
  cpu: Uint8Array,
  call: Uint16Array,
  table: Uint16Array,
  isWindow: Uint8Array,
};
// Of each receipt: `reply` is the text's line.
const OF_RECEIPTS = {
  reply: Uint32Array,
  entry: Uint32Array,
  stamp: Uint32Array,
  bits: Uint8Array,
  answer: Uint8Array,
};

// Reads a text of replies; of a set each line has its partition's number in front. `told` hears how far it is, 0 to 1.
export function readReplies(lines, isSet, told = () => {}) {
  const reader = new Reader(lines, isSet);
  for (let at = 0; at < lines.count; at += 1) {
    if (at % 16_384 === 0) told(at / lines.count);
    reader.line(at);
  }
  return reader.done();
}

class Reader {
  constructor(lines, isSet) {
    Object.assign(this, { lines, isSet, calls: [], numbers: new Map(), tables: new Map(), part: 0, parts: new Set() });
    this.replies = new Columns(OF_LINES, lines.count + 1);
    this.receipts = new Columns(OF_RECEIPTS, 4096);
    this.answers = new Map(ANSWERS.map((answer, at) => [keyOf(answer.length, answer.charCodeAt(0)), at]));
  }

  // The number of a call's name. The last one is that of all for which there is no other.
  numberOf(word) {
    const call = word.slice(0, LONGEST_CALL);
    if (!this.numbers.has(call)) {
      if (this.calls.length === MOST_CALLS) return MOST_CALLS - 1;
      this.numbers.set(call, this.calls.length);
      this.calls.push(call);
    }
    return this.numbers.get(call);
  }

  line(at) {
    const { bytes, starts } = this.lines;
    const [start, end] = [starts[at], starts[at + 1]];
    let bar = start;
    while (bar < end && bytes[bar] !== BAR) bar += 1;
    const isReply = bytes[start] >= ZERO && bytes[start] < ZERO + 10;
    const headEnd = isReply ? Math.min(bar, start + MOST_HEAD) : start;
    const head = decoder.decode(bytes.subarray(start, headEnd)).trimEnd();
    const words = head.split(" ").filter((word) => word !== "");
    if (this.isSet) this.part = Number(words.shift()) || 0;
    const { replies, receipts } = this;
    replies.add();
    replies.part[at] = this.part;
    this.parts.add(this.part);
    replies.first[at] = receipts.length;
    if (words.length < 3 || !/^[0-9]+$/.test(words[0])) return;
    replies.of[at] = Number(words[0]);
    if (words[1] === "dump") return;
    const [, cpu, call, ...answer] = words;
    const table = this.tables.get(this.part) ?? 0;
    replies.cpu[at] = Number(cpu);
    replies.call[at] = this.numberOf(call);
    replies.table[at] = table;
    if (bar < end) this.readReceipts(at, bar + 1, end);
    replies.isWindow[at] = this.isOnWindow(call, answer, replies.first[at]) ? 1 : 0;
    if (call === COMMIT && answer[0] === "0") this.tables.set(this.part, table + 1);
  }

  // Each receipt is a space and ENTRY.STAMP.BITS.ANSWER.
  readReceipts(reply, from, to) {
    const { bytes } = this.lines;
    const { receipts } = this;
    let place = from;
    while (place < to && bytes[place] === SPACE) {
      let entry = 0;
      let stamp = 0;
      for (place += 3; bytes[place] !== DOT && place < to; place += 1) entry = entry * 16 + digit(bytes[place]);
      for (place += 1; bytes[place] !== DOT && place < to; place += 1) stamp = stamp * 10 + digit(bytes[place]);
      const bits = digit(bytes[place + 1]);
      const word = place + 3;
      for (place = word; place < to && bytes[place] !== SPACE && bytes[place] !== LF; place += 1);
      const answer = this.answers.get(keyOf(place - word, bytes[word]));
      if (answer === undefined) return;
      const at = receipts.add();
      receipts.reply[at] = reply;
      receipts.entry[at] = bounded(entry);
      receipts.stamp[at] = bounded(stamp);
      receipts.bits[at] = bits;
      receipts.answer[at] = answer;
    }
  }

  // One more row of lines says where the receipts of the last line end.
  done() {
    const last = this.replies.add();
    this.replies.first[last] = this.receipts.length;
    const { of, ...lines } = this.replies.done();
    const parts = [...this.parts].sort((a, b) => a - b);
    return { ...lines, of: of.subarray(0, last), ...this.receipts.done(), calls: this.calls, parts };
  }

  // Whether a line is on a DMA window. Of a call by its number the form of the reply tells it: other calls that read or
  // remove an entry, or find none, have other words or codes.
  isOnWindow(call, [code, ...words], before) {
    const { receipts } = this;
    if (call !== "hcall" || receipts.length === before) return ON_WINDOWS.has(call);
    const answers = [...receipts.answer.subarray(before, receipts.length)].map((it) => ANSWERS[it]);
    const isGet = answers.length === 1 && answers[0] === "read" && words.length === 1;
    const isPut = ["removed", "notfound"].includes(answers[0]) && words.length === 0 && ["0", "1"].includes(code);
    return isGet || isPut;
  }
}

// A number as a column holds it, in place of what is left of a larger one.
function bounded(number) {
  return number >= 0 && number <= MOST_NUMBER ? number : MOST_NUMBER;
}

function digit(byte) {
  return byte < 58 ? byte - 48 : byte - 87;
}

// No two answers have the same length and the same first letter.
function keyOf(length, first) {
  return 256 * length + first;
}

// Whether a receipt is one of a page table, as the pictures show them: of no window, and of an entry that a table has.
export function isOfTable(replies, at) {
  return replies.isWindow[replies.reply[at]] === 0 && replies.entry[at] < MOST_ENTRIES;
}

// Whether a receipt's operation changed the entry.
export function isChange(replies, at) {
  const answer = replies.answer[at];
  if (ANSWERS[answer] !== "at") return IS_CHANGE[answer];
  return bitsAfter("at", replies.bits[at], callOf(replies, replies.reply[at])) !== replies.bits[at];
}

function callOf(replies, reply) {
  return replies.calls[replies.call[reply]];
}

// One receipt of the columns as an object.
export function receiptAt(replies, at) {
  const reply = replies.reply[at];
  const [call, answer, bits] = [callOf(replies, reply), ANSWERS[replies.answer[at]], replies.bits[at]];
  return {
    line: replies.of[reply],
    cpu: replies.cpu[reply],
    call,
    entry: replies.entry[at],
    stamp: replies.stamp[at],
    bits,
    answer,
    table: replies.table[reply],
    isOfTable: isOfTable(replies, at),
    isWindow: replies.isWindow[reply] === 1,
    bitsAfter: bitsAfter(answer, bits, call),
    isChange: isChange(replies, at),
  };
}

// R (2) and C (1) after, or null where this receipt alone doesn't tell.
function bitsAfter(answer, bits, call) {
  if (answer === "removed") return 0;
  if (answer === "at") return bits | (call === "store" ? REFERENCED | CHANGED : REFERENCED);
  if (answer === "was") {
    if (call === "H_CLEAR_REF") return bits & ~REFERENCED;
    return call === "H_CLEAR_MOD" ? bits & ~CHANGED : null;
  }
  return answer === "entered" ? null : bits;
}

// In words, as a tooltip has it.
export function wordsOf(receipt) {
  const { line, cpu, call, answer, stamp, bits } = receipt;
  return `line ${line}, processor ${cpu}: ${call} ${answer}; before: stamp ${stamp}, R ${bits >> 1}, C ${bits & 1}`;
}

// Whether a reply, by its place, has a receipt of this entry of a partition's page table.
export function touches(replies, reply, part, entry) {
  if (replies === null || entry === null || replies.isWindow[reply] || replies.part[reply] !== part) return false;
  return replies.entry.subarray(replies.first[reply], replies.first[reply + 1]).includes(entry);
}
