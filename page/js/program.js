// The proved program from the page's side: words and bytes in, a status and bytes out.

import { MOST_INPUT } from "./limits.js";

// What each status means, in a few words; the last is the call's own, and is never shown.
export const STATUSES = [
  "done",
  "no such command",
  "refused",
  "reading failed",
  "writing failed",
  "not enough memory",
  "not the text of a good run",
];
export const REFUSED = 2;
export const NO_MEMORY = 5;
export const NOT_GOOD = 6;
const NO_ROOM = 7;
const END_BYTES = 16; // of what a call ends with: a status of four bytes, and a length of eight behind it
// A reply has at most sixteen receipts. A room that is too small is answered with the one that is wanted, after all the
// work; one that is too large costs nothing, since the memory behind a text is never touched.
const ROOM = (length) => 65_536 + (length > MOST_INPUT ? 0 : 24 * length);

export class Program {
  constructor(bytes) {
    this.module = new WebAssembly.Module(bytes);
  }

  // Calls the program with the words behind its name, at most three, and the bytes of standard input. Each call has an
  // instance of its own, so none sees what another left in memory.
  call(words, input, room = ROOM(input.length)) {
    const { exports } = new WebAssembly.Instance(this.module, {});
    const { memory, page_room: take, papr_bytes_call: papr } = exports;
    const place = (length) => {
      const at = take(BigInt(Math.max(1, length)));
      if (!at) throw new Error("there is not enough memory for the input and the replies");
      return at;
    };
    const put = (bytes) => {
      const at = place(bytes.length);
      new Uint8Array(memory.buffer).set(bytes, Number(at));
      return [at, BigInt(bytes.length)];
    };
    const encoder = new TextEncoder();
    const given = [0, 1, 2].flatMap((at) => put(encoder.encode(words[at] ?? "")));
    given.push(...put(input));
    const [text, end] = [place(room), place(END_BYTES)];
    papr(end, ...given, text, BigInt(room));
    const view = new DataView(memory.buffer);
    const status = view.getUint32(Number(end), true);
    const length = Number(view.getBigUint64(Number(end) + 8, true));
    if (status === NO_ROOM) return this.call(words, input, length);
    return {
      status,
      text: new Uint8Array(memory.buffer, Number(text), length).slice(),
      memory: memory.buffer.byteLength,
    };
  }
}
