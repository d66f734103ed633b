// Bytes as lines: where each begins, without a string for any of them.

const LF = 10;
const MOST = 65_536; // bytes of a line; no line that means something is as long
const decoder = new TextDecoder();

export class Lines {
  // The bytes, and the place of each line's first byte with one more behind the last line.
  constructor(bytes = new Uint8Array(0), starts = startsOf(bytes)) {
    this.bytes = bytes;
    this.starts = starts;
  }

  // Lines as another thread gave them.
  static of({ bytes, starts }) {
    return new Lines(bytes, starts);
  }

  get count() {
    return this.starts.length - 1;
  }

  // The line at a place, from 0 on, without its end; of a long one so many bytes.
  text(at, most = MOST) {
    const start = this.starts[at];
    let end = this.starts[at + 1];
    if (end > start && this.bytes[end - 1] === LF) end -= 1;
    return decoder.decode(this.bytes.subarray(start, Math.min(end, start + most)));
  }
}

// A line ends at LF or at the end of the bytes; behind the last LF there is no line.
function startsOf(bytes) {
  let count = 0;
  for (let at = 0; at < bytes.length; at += 1) if (bytes[at] === LF) count += 1;
  const isEnded = bytes.length === 0 || bytes[bytes.length - 1] === LF;
  const starts = new Uint32Array(count + (isEnded ? 1 : 2));
  let place = 0;
  for (let at = 0; at < bytes.length; at += 1) {
    if (bytes[at] === LF) {
      place += 1;
      starts[place] = at + 1;
    }
  }
  starts[starts.length - 1] = bytes.length;
  return starts;
}
