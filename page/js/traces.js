// The lines of a trace, as far as the page has to know them: which are quiet, and where a refusal says why.

import { Lines } from "./lines.js";

// tests/check call-table: begin
const RESIZES = new Map([
  [0x36cn, "H_RESIZE_HPT_PREPARE"],
  [0x370n, "H_RESIZE_HPT_COMMIT"],
]);
// tests/check call-table: end

// The words of a line; a remark has none.
export function wordsOfLine(line) {
  const words = line.replace(/\r$/, "").split(/[ \t]+/).filter((word) => word !== "");
  return words.length > 0 && words[0].startsWith("#") ? [] : words;
}

// A number as a trace writes it, or null.
export function readNumber(word) {
  if (!/^(0[xX][0-9a-fA-F]{1,16}|[0-9]{1,20})$/.test(word ?? "")) return null;
  const value = BigInt(word);
  return value < 1n << 64n ? value : null;
}

// Whether a line is a dump or a resize call, and so ends a section.
export function isQuiet(words) {
  if (words[0] === "dump") return true;
  const name = words[1] === "hcall" ? RESIZES.get(readNumber(words[2])) : words[1];
  return /^[0-9]/.test(words[0] ?? "") && [...RESIZES.values()].includes(name);
}

// The lines of the trace, from 1, at which a section begins and ends. Quiet lines cut a trace into sections, from 1 on.
export function sectionOf(lines, number) {
  let [section, begin] = [1, 1];
  for (let at = 0; at < lines.count; at += 1) {
    if (!isQuiet(wordsOfLine(lines.text(at)))) continue;
    if (section === number) return [begin, at + 1];
    section += 1;
    begin = at + 2;
  }
  return section === number ? [begin, lines.count] : null;
}

// A text for `check`: a trace, a line `replies`, and the text behind it; null where there is no such line.
export function judgedParts(bytes) {
  const text = new TextDecoder("latin1").decode(bytes);
  const found = /(^|\n)replies\r?(\n|$)/.exec(text);
  if (found === null) return null;
  return [bytes.subarray(0, found.index + found[1].length), bytes.subarray(found.index + found[0].length)];
}

// The two as one input of the program.
export function judgedText(trace, replies) {
  const isEnded = trace.length === 0 || trace[trace.length - 1] === 10;
  const between = new TextEncoder().encode(`${isEnded ? "" : "\n"}replies\n`);
  const whole = new Uint8Array(trace.length + between.length + replies.length);
  whole.set(trace);
  whole.set(between, trace.length);
  whole.set(replies, trace.length + between.length);
  return whole;
}

// The trace up to a line, with that line: what a table was behind it is the image of this.
export function cutBehind(lines, number) {
  const count = Math.min(number, lines.count);
  return new Lines(lines.bytes.subarray(0, lines.starts[count]), lines.starts.subarray(0, count + 1));
}

// The line of an image that has an index, or null. They stand in order of rising index, below the image's first line.
export function imageLine(lines, index) {
  let [low, high] = [1, lines.count];
  while (low < high) {
    const middle = (low + high) >> 1;
    if (Number.parseInt(lines.text(middle), 16) < index) low = middle + 1;
    else high = middle;
  }
  const found = low < lines.count ? lines.text(low) : "";
  return found.startsWith(`0x${index.toString(16)} `) ? found : null;
}
