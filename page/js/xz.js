// Files of xz, which browsers can't open themselves: streams with the filter LZMA2 and no check, CRC32 or CRC64.

import { Output } from "./output.js";

const MAGIC = [0xfd, 0x37, 0x7a, 0x58, 0x5a, 0x00];
const CHECK_BYTES = new Map([[0, 0], [1, 4], [4, 8]]);
const LZMA2 = 0x21;

export function isXz(bytes) {
  return MAGIC.every((byte, at) => bytes[at] === byte);
}

function need(holds) {
  if (!holds) throw new Error("the file isn't whole, or isn't one of xz with LZMA2");
}

// The bytes that a file of xz holds; throws where it is broken.
export function unpackXz(bytes) {
  const out = new Output();
  let at = 0;
  do at = stream(bytes, at, out); while (at < bytes.length && isXz(bytes.subarray(at)));
  return out.whole();
}

function stream(bytes, begin, out) {
  need(isXz(bytes.subarray(begin)) && begin + 12 <= bytes.length);
  const check = bytes[begin + 7];
  need(bytes[begin + 6] === 0 && CHECK_BYTES.has(check));
  let at = begin + 12;
  while (bytes[at] !== 0) {
    need(at < bytes.length);
    at = block(bytes, at, check, out);
  }
  // The index of the blocks, and the footer; the blocks have been read already.
  const index = at;
  at += 1;
  let count;
  [count, at] = number(bytes, at);
  for (let pair = 0; pair < 2 * count; pair += 1) [, at] = number(bytes, at);
  at += (4 - ((at - index) % 4)) % 4;
  at += 4 + 12;
  need(at <= bytes.length && bytes[at - 2] === 0x59 && bytes[at - 1] === 0x5a);
  while (bytes[at] === 0 && at < bytes.length) at += 1;
  return at;
}

// A number of several bytes, seven bits each, the lowest first.
function number(bytes, begin) {
  let [value, at, place] = [0, begin, 1];
  for (;;) {
    need(at < bytes.length && at - begin < 7);
    value += (bytes[at] & 0x7f) * place;
    place *= 128;
    at += 1;
    if ((bytes[at - 1] & 0x80) === 0) return [value, at];
  }
}

function block(bytes, begin, check, out) {
  const end = begin + 4 * (bytes[begin] + 1);
  const flags = bytes[begin + 1];
  let at = begin + 2;
  if (flags & 0x40) [, at] = number(bytes, at);
  if (flags & 0x80) [, at] = number(bytes, at);
  need((flags & 0x3f) === 0 && bytes[at] === LZMA2 && bytes[at + 1] === 1 && end <= bytes.length);
  const first = out.length;
  at = new Lzma2(bytes, end, out).run();
  at += (4 - ((at - end) % 4)) % 4;
  const size = CHECK_BYTES.get(check);
  need(at + size <= bytes.length);
  const sum = size === 0 ? [] : crc(out.bytes.subarray(first, out.length), size);
  need(sum.every((byte, place) => byte === bytes[at + place]));
  return at + size;
}

// ---- sums, by a table of 256 steps

function crc(bytes, size) {
  return size === 4 ? crc32(bytes) : crc64(bytes);
}

function crc32(bytes) {
  const table = Uint32Array.from({ length: 256 }, (_, byte) => {
    let value = byte;
    for (let bit = 0; bit < 8; bit += 1) value = value & 1 ? (value >>> 1) ^ 0xedb88320 : value >>> 1;
    return value;
  });
  let sum = 0xffffffff;
  for (const byte of bytes) sum = (sum >>> 8) ^ table[(sum ^ byte) & 0xff];
  return little([~sum]);
}

// In two halves, since numbers of JavaScript are shorter.
function crc64(bytes) {
  const [low, high] = [new Uint32Array(256), new Uint32Array(256)];
  for (let byte = 0; byte < 256; byte += 1) {
    let [l, h] = [byte, 0];
    for (let bit = 0; bit < 8; bit += 1) {
      const isOdd = l & 1;
      l = (l >>> 1) | (h << 31);
      h >>>= 1;
      if (isOdd) [l, h] = [l ^ 0xd7870f42, h ^ 0xc96c5795];
    }
    [low[byte], high[byte]] = [l, h];
  }
  let [l, h] = [0xffffffff, 0xffffffff];
  for (const byte of bytes) {
    const place = (l ^ byte) & 0xff;
    l = ((l >>> 8) | (h << 24)) ^ low[place];
    h = (h >>> 8) ^ high[place];
  }
  return little([~l, ~h]);
}

function little(words) {
  return words.flatMap((word) => [word & 0xff, (word >>> 8) & 0xff, (word >>> 16) & 0xff, word >>> 24]);
}

// ---- LZMA2: chunks, each plain or of LZMA

class Lzma2 {
  constructor(bytes, at, out) {
    Object.assign(this, { bytes, at, out, lzma: null, first: out.length });
  }

  // Unpacks up to the end of the chunks, and gives the place behind.
  run() {
    for (;;) {
      need(this.at < this.bytes.length);
      const control = this.bytes[this.at];
      this.at += 1;
      if (control === 0) return this.at;
      if (control >= 0x80) this.packed(control);
      else this.plain(control);
    }
  }

  short() {
    need(this.at + 2 <= this.bytes.length);
    this.at += 2;
    return (this.bytes[this.at - 2] << 8) + this.bytes[this.at - 1] + 1;
  }

  plain(control) {
    need(control <= 2);
    if (control === 1) this.first = this.out.length;
    const length = this.short();
    need(this.at + length <= this.bytes.length);
    this.out.add(this.bytes.subarray(this.at, this.at + length));
    this.at += length;
  }

  packed(control) {
    const length = ((control & 0x1f) << 16) + this.short();
    const size = this.short();
    const reset = (control >> 5) & 3;
    if (reset === 3) this.first = this.out.length;
    if (reset >= 2) {
      this.lzma = new Lzma(this.bytes[this.at]);
      this.at += 1;
    } else if (reset === 1 && this.lzma) this.lzma.reset();
    need(this.lzma !== null && this.at + size <= this.bytes.length);
    this.out.reserve(length);
    this.lzma.unpack(this.bytes, this.at, this.at + size, this.out, length, this.first);
    this.at += size;
  }
}

const [LEN_LOW, LEN_MIDDLE] = [8, 8];
const EVEN = 1024; // a bit that is as likely as not, of 2048
const TOP = 2 ** 24;

const probabilities = (count) => new Uint16Array(count).fill(EVEN);

function lengths() {
  const [low, middle] = [probabilities(16 * LEN_LOW), probabilities(16 * LEN_MIDDLE)];
  return { choice: probabilities(2), low, middle, high: probabilities(256) };
}

class Lzma {
  constructor(properties) {
    need(properties < 225);
    this.lc = properties % 9;
    this.lp = Math.floor(properties / 9) % 5;
    this.pb = Math.floor(properties / 45);
    need(this.lc + this.lp <= 4);
    this.reset();
  }

  reset() {
    this.state = 0;
    this.distances = [0, 0, 0, 0];
    this.literals = probabilities(0x300 << (this.lc + this.lp));
    this.isMatch = probabilities(12 * 16);
    this.isRep = probabilities(12);
    this.isRep0 = probabilities(12);
    this.isRep1 = probabilities(12);
    this.isRep2 = probabilities(12);
    this.isRep0Long = probabilities(12 * 16);
    this.slots = probabilities(4 * 64);
    this.specials = probabilities(115);
    this.align = probabilities(16);
    this.matchLengths = lengths();
    this.repLengths = lengths();
  }

  bit(of, at) {
    const bound = (this.range >>> 11) * of[at];
    let bit;
    if (this.code < bound) {
      this.range = bound;
      of[at] += (2048 - of[at]) >> 5;
      bit = 0;
    } else {
      this.range -= bound;
      this.code -= bound;
      of[at] -= of[at] >> 5;
      bit = 1;
    }
    if (this.range < TOP) this.shift();
    return bit;
  }

  shift() {
    this.range = (this.range * 256) >>> 0;
    this.code = ((this.code * 256) >>> 0) + this.bytes[this.at];
    this.at += 1;
  }

  // Bits by a tree, the highest first.
  tree(of, base, count) {
    let found = 1;
    for (let step = 0; step < count; step += 1) found = (found << 1) | this.bit(of, base + found);
    return found - (1 << count);
  }

  // The same, the lowest first.
  reverse(of, base, count) {
    let [found, node] = [0, 1];
    for (let step = 0; step < count; step += 1) {
      const bit = this.bit(of, base + node);
      node = (node << 1) | bit;
      found |= bit << step;
    }
    return found;
  }

  // Bits of which each is as likely as not.
  direct(count) {
    let found = 0;
    for (let step = 0; step < count; step += 1) {
      this.range >>>= 1;
      const bit = this.code >= this.range ? 1 : 0;
      if (bit) this.code -= this.range;
      if (this.range < TOP) this.shift();
      found = found * 2 + bit;
    }
    return found;
  }

  unpack(bytes, at, end, out, length, first) {
    Object.assign(this, { bytes, at: at + 5, range: 0xffffffff, out, first });
    need(at + 5 <= end && bytes[at] === 0);
    this.code = ((bytes[at + 1] << 24) | (bytes[at + 2] << 16) | (bytes[at + 3] << 8) | bytes[at + 4]) >>> 0;
    const stop = out.length + length;
    while (out.length < stop) {
      const place = (out.length - first) & ((1 << this.pb) - 1);
      if (this.bit(this.isMatch, this.state * 16 + place) === 0) this.literal();
      else this.copy(this.bit(this.isRep, this.state) === 0 ? this.match(place) : this.repeated(place), stop);
      need(this.at <= end);
    }
  }

  literal() {
    const { out, lc, lp } = this;
    const before = out.length > this.first ? out.bytes[out.length - 1] : 0;
    const base = 0x300 * ((((out.length - this.first) & ((1 << lp) - 1)) << lc) + (before >> (8 - lc)));
    let found = 1;
    if (this.state >= 7) {
      let byte = out.bytes[out.length - this.distances[0] - 1];
      do {
        const wanted = (byte >> 7) & 1;
        byte <<= 1;
        const bit = this.bit(this.literals, base + ((1 + wanted) << 8) + found);
        found = (found << 1) | bit;
        if (bit !== wanted) break;
      } while (found < 0x100);
    }
    while (found < 0x100) found = (found << 1) | this.bit(this.literals, base + found);
    out.bytes[out.length] = found & 0xff;
    out.length += 1;
    if (this.state < 4) this.state = 0;
    else this.state -= this.state < 10 ? 3 : 6;
  }

  match(place) {
    const length = this.length(this.matchLengths, place);
    this.state = this.state < 7 ? 7 : 10;
    const slot = this.tree(this.slots, Math.min(length - 2, 3) * 64, 6);
    let distance = slot;
    if (slot >= 4) {
      const count = (slot >> 1) - 1;
      distance = (2 | (slot & 1)) * 2 ** count;
      if (slot < 14) distance += this.reverse(this.specials, distance - slot, count);
      else distance += this.direct(count - 4) * 16 + this.reverse(this.align, 0, 4);
    }
    this.distances = [distance, ...this.distances.slice(0, 3)];
    return length;
  }

  repeated(place) {
    const { distances } = this;
    if (this.bit(this.isRep0, this.state) === 0) {
      if (this.bit(this.isRep0Long, this.state * 16 + place) === 0) {
        this.state = this.state < 7 ? 9 : 11;
        return 1;
      }
    } else {
      const which = this.bit(this.isRep1, this.state) === 0 ? 1 : 2 + this.bit(this.isRep2, this.state);
      distances.unshift(...distances.splice(which, 1));
    }
    const length = this.length(this.repLengths, place);
    this.state = this.state < 7 ? 8 : 11;
    return length;
  }

  length(of, place) {
    if (this.bit(of.choice, 0) === 0) return 2 + this.tree(of.low, place * LEN_LOW, 3);
    if (this.bit(of.choice, 1) === 0) return 10 + this.tree(of.middle, place * LEN_MIDDLE, 3);
    return 18 + this.tree(of.high, 0, 8);
  }

  copy(length, stop) {
    const { out } = this;
    const distance = this.distances[0] + 1;
    need(distance <= out.length - this.first && out.length + length <= stop);
    for (let step = 0; step < length; step += 1) {
      out.bytes[out.length] = out.bytes[out.length - distance];
      out.length += 1;
    }
  }
}
