// Bytes that are unpacked piece by piece, up to a bound.

import { MOST_UNPACKED, TOO_MUCH } from "./limits.js";

export class Output {
  constructor() {
    this.bytes = new Uint8Array(1 << 16);
    this.length = 0;
  }

  // Makes room for so many more bytes.
  reserve(count) {
    const wanted = this.length + count;
    if (wanted > MOST_UNPACKED) throw new Error(TOO_MUCH);
    if (wanted <= this.bytes.length) return;
    const longer = new Uint8Array(Math.max(wanted, Math.min(MOST_UNPACKED, 2 * this.bytes.length)));
    longer.set(this.bytes);
    this.bytes = longer;
  }

  add(piece) {
    this.reserve(piece.length);
    this.bytes.set(piece, this.length);
    this.length += piece.length;
  }

  whole() {
    return this.bytes.slice(0, this.length);
  }
}
