// Files that a user opens or drops: plain, or packed by gzip or xz.

import { MOST_UNPACKED, TOO_MUCH } from "./limits.js";
import { Lines } from "./lines.js";
import { Output } from "./output.js";
import { judgedParts, wordsOfLine } from "./traces.js";
import { isXz, unpackXz } from "./xz.js";

const A_PIECE = 2 ** 14; // packed bytes; what is in them is unpacked at once, up to a thousand times as many

// Bytes as a stream of pieces.
function streamOf(bytes) {
  let at = 0;
  return new ReadableStream({
    pull(stream) {
      if (at < bytes.length) stream.enqueue(bytes.subarray(at, at + A_PIECE));
      else stream.close();
      at += A_PIECE;
    },
  });
}

// Unpacks piece by piece, so that a small file that holds much is given up before it takes the memory.
export async function gunzip(bytes) {
  const reader = streamOf(bytes).pipeThrough(new DecompressionStream("gzip")).getReader();
  const out = new Output();
  try {
    for (let next = await reader.read(); !next.done; next = await reader.read()) out.add(next.value);
  } catch (error) {
    reader.cancel().catch(() => {});
    throw error;
  }
  return out.whole();
}

export function fromBase64(text) {
  const packed = atob(text.trim());
  return Uint8Array.from(packed, (letter) => letter.charCodeAt(0));
}

// The bytes of a file, unpacked where it is packed.
async function unpacked(file) {
  if (file.size > MOST_UNPACKED) throw new Error(TOO_MUCH);
  const bytes = new Uint8Array(await file.arrayBuffer());
  if (isXz(bytes)) return unpackXz(bytes);
  if (bytes[0] === 0x1f && bytes[1] === 0x8b) {
    if (typeof DecompressionStream === "undefined") throw new Error("this browser can't unpack gzip");
    return gunzip(bytes);
  }
  return bytes;
}

// Which command a text is for, by its name and by what it holds.
function commandFor(name, bytes) {
  const plain = name.replace(/\.(gz|xz)$/, "");
  if (plain.endsWith(".set")) return "set";
  if (plain.endsWith(".judged")) return "check";
  if (plain.endsWith(".trace")) return "run";
  const head = new TextDecoder("latin1").decode(bytes.subarray(0, 65_536)).split("\n");
  const first = head.map(wordsOfLine).find((words) => words.length > 0) ?? [];
  if (first[0] === "shared" || (/^[0-7]$/.test(first[0]) && first[1] === "order")) return "set";
  return judgedParts(bytes) === null ? "run" : "check";
}

// Reads a file; the text may be for a given command. Gives the command, and the trace and the text to judge as lines.
export async function opened({ name, file, command }) {
  const bytes = await unpacked(file);
  const wanted = command ?? commandFor(name, bytes);
  const parts = (wanted === "check" && judgedParts(bytes)) || [bytes, new Uint8Array(0)];
  const [trace, judged] = parts.map((part) => new Lines(part));
  return { command: wanted, trace, judged };
}
