// The pictures of a run: the map of the table's groups with its slider, the history of an entry, and an entry in words.

import { entryOf, rowsOf } from "./entry.js";
import { Groups } from "./groups.js";
import { changesOf, historyOf } from "./histories.js";
import { MOST_COLUMNS, drawHistory } from "./history.js";
import { receiptAt } from "./replies.js";
import { readNumber, wordsOfLine } from "./traces.js";

const NAMED_ENTRIES = 60;
const by = (id) => document.getElementById(id);
const hex = (value) => `0x${value.toString(16)}`;
const counted = (count, word) => `${count.toLocaleString("en")} ${word}${count === 1 ? "" : "s"}`;

export class Pictures {
  // `goTo(line)` shows a line of the trace, and `marked(part, entry)` hears which entry is looked at.
  constructor(goTo, marked) {
    Object.assign(this, { goTo, marked, replies: null, groups: null, part: 0, entry: null, line: null, ringed: [] });
    by("time").addEventListener("input", () => this.drawMap());
    by("part").addEventListener("change", () => {
      this.take(this.replies, this.lines, Number(by("part").value));
      this.begin();
    });
    by("changes").addEventListener("change", () => this.drawHistory());
    by("entry").addEventListener("change", () => this.chooseWord(by("entry").value));
    by("map").addEventListener("click", (event) => this.chooseCell(event));
    by("history").addEventListener("click", ({ target }) => {
      const line = target.closest("[data-line]")?.dataset.line;
      if (line) this.goTo(Number(line));
    });
  }

  // Takes the replies of a run of so many lines; of a set one partition's, at first that of the first receipt. The map
  // is drawn.
  take(replies, lines, part = replies?.part[replies.reply[0] ?? 0] ?? 0) {
    Object.assign(this, { replies, lines, part, line: null, ringed: [], entry: null });
    this.groups = replies === null ? null : new Groups(replies, part);
    const hasReceipts = replies !== null && replies.order.length > 0;
    by("pictures").hidden = !hasReceipts;
    by("no-pictures").hidden = true;
    this.marked(part, null);
    if (!hasReceipts) return;
    this.offerParts();
    by("time").max = lines;
    by("time").value = lines;
    const named = this.groups.busiestEntries(NAMED_ENTRIES);
    by("entries").replaceChildren(...named.map(([entry, count]) => new Option(counted(count, "receipt"), hex(entry))));
    this.drawScale();
    this.drawMap();
    this.busiest = named.length > 0 ? named[0][0] : null;
  }

  // Shows the history of the entry with the most receipts; it is the longest picture.
  begin() {
    if (!by("pictures").hidden) this.chooseEntry(this.busiest, false);
  }

  // There is nothing to see, and this is why.
  fail(words) {
    by("pictures").hidden = true;
    by("no-pictures").hidden = false;
    by("no-pictures").textContent = `The pictures aren't drawn: ${words}.`;
  }

  // Of a set, which partition is looked at.
  offerParts() {
    const { parts } = this.replies;
    by("part-label").hidden = parts.length < 2;
    const options = parts.map((part) => new Option(`partition ${part}`, part, false, part === this.part));
    by("part").replaceChildren(...options);
  }

  // A line was chosen: the cells of its entries are ringed, and its column in the history is marked.
  chooseLine(line, receipts, part = this.part) {
    if (by("pictures").hidden) return;
    if (part !== this.part) this.take(this.replies, this.lines, part);
    const own = receipts.filter((receipt) => receipt.isOfTable);
    this.line = line;
    this.ringed = [...new Set(own.map(({ entry }) => entry))];
    this.drawMap();
    if (own.length > 0 && !this.ringed.includes(this.entry)) this.chooseEntry(own[own.length - 1].entry);
    else this.chooseEntry(this.entry);
  }

  chooseWord(word) {
    const entry = readNumber(word.trim());
    if (entry !== null) this.chooseEntry(Number(entry));
  }

  chooseEntry(entry, isMarked = true) {
    this.entry = entry;
    by("entry").value = entry === null ? "" : hex(entry);
    if (isMarked) this.marked(this.part, entry);
    this.drawHistory();
  }

  // A click on the map chooses the cell's entry with the most receipts.
  chooseCell(event) {
    const picture = by("map").querySelector("svg");
    const place = new DOMPoint(event.clientX, event.clientY).matrixTransform(picture.getScreenCTM().inverse());
    const cell = this.groups.at(place.x, place.y);
    if (cell === null) return;
    const own = this.groups.entriesUpTo(Infinity).subarray(cell.first, cell.first + cell.count);
    const busiest = own.reduce((best, count, at) => (count > own[best] ? at : best), 0);
    const last = cell.first + cell.count - 1;
    by("cell").textContent = `entries ${hex(cell.first)} to ${hex(last)}: ${counted(cell.receipts, "receipt")}`;
    if (own[busiest] > 0) this.chooseEntry(cell.first + busiest);
  }

  drawMap() {
    const line = Number(by("time").value);
    const isAll = line >= Number(by("time").max);
    by("map").innerHTML = this.groups.draw(isAll ? Infinity : line, this.ringed);
    by("time-label").textContent = `${isAll ? "to the last line," : "up to line"} ${line.toLocaleString("en")}`;
    const counts = isAll ? this.groups.all : this.groups.countsUpTo(line);
    const named = ([group, count]) => `${hex(8 * group)} (${count.toLocaleString("en")})`;
    const busiest = this.groups.busiest(counts).map(named).join(", ");
    by("busiest").textContent = busiest ? `Busiest groups, by their first entry: ${busiest}` : "No receipts yet.";
  }

  drawScale() {
    const cells = this.groups.scale().map(({ level, low, high }) => {
      const words = low === high ? String(low) : `${low.toLocaleString("en")} to ${high.toLocaleString("en")}`;
      const box = `<rect class="heat-${level}" width="13" height="13"/>`;
      return `<span><svg class="swatch" viewBox="0 0 13 13">${box}</svg>${words}</span>`;
    });
    const each = this.groups.aCell === 1 ? "a group" : `${this.groups.aCell} groups`;
    by("scale").innerHTML = `${cells.join(" ")} <span>receipts; a cell is ${each} of 8 entries</span>`;
    by("cell").textContent = "";
  }

  drawHistory() {
    if (this.entry === null) {
      by("history").replaceChildren();
      by("history-label").textContent = "";
      return;
    }
    const { replies } = this;
    const all = historyOf(replies, this.part, this.entry);
    const chosen = by("changes").checked ? changesOf(replies, all) : all;
    const here = this.line === null ? -1 : chosen.findIndex((at) => replies.of[replies.reply[at]] === this.line);
    const first = Math.max(0, Math.min(here - MOST_COLUMNS / 2, chosen.length - MOST_COLUMNS));
    const shown = Array.from(chosen.subarray(first, first + MOST_COLUMNS), (at) => receiptAt(replies, at));
    const words = shown.length < chosen.length ? `, of which ${counted(shown.length, "receipt")} are drawn` : "";
    by("history-label").textContent = `${counted(chosen.length, by("changes").checked ? "change" : "receipt")}${words}`;
    by("history").replaceChildren(...(shown.length > 0 ? drawHistory(shown, this.line).map(elementOf) : [noReceipt()]));
    this.showColumn();
  }

  // Scrolls the picture alone, so that the chosen line's column is seen.
  showColumn() {
    const picture = by("history");
    const column = picture.querySelector(".here")?.getBoundingClientRect();
    if (column === undefined) return;
    const frame = picture.getBoundingClientRect();
    const isBeside = column.left < frame.left || column.right > frame.right;
    const isBeyond = column.top < frame.top || column.bottom > frame.bottom;
    if (isBeside) picture.scrollLeft += column.left - frame.left - frame.width / 2;
    if (isBeyond) picture.scrollTop += column.top - frame.top - 120;
  }
}

// A part of the history's picture.
function elementOf({ width, height, svg }) {
  const part = document.createElement("div");
  part.className = "part";
  Object.assign(part.style, { width: `${width}px`, height: `${height}px` });
  part.innerHTML = svg;
  return part;
}

function noReceipt() {
  return Object.assign(document.createElement("p"), { textContent: "No receipt of this entry." });
}

// The field of two doublewords, and what they mean.
export class EntryReader {
  constructor(decoder) {
    this.decoder = decoder;
    for (const id of ["dword0", "dword1", "layout", "index"]) by(id).addEventListener("input", () => this.draw());
  }

  // Puts in the doublewords that a line or a reply has, if it has some.
  offer(line, reply) {
    const found = fromText(reply) ?? fromReply(reply) ?? fromLine(line, reply);
    if (found) this.put(found);
  }

  put({ dword0, dword1, layout = "old", index = null, from = "" }) {
    by("dword0").value = hex(dword0);
    by("dword1").value = hex(dword1);
    by("layout").value = layout;
    by("index").value = index === null ? "" : hex(index);
    this.draw(from);
  }

  draw(from = "") {
    const [dword0, dword1, index] = ["dword0", "dword1", "index"].map((id) => readNumber(by(id).value.trim()));
    by("entry-from").textContent = typeof from === "string" ? from : "";
    if (dword0 === null || dword1 === null) {
      by("fields").replaceChildren();
      return;
    }
    const rows = rowsOf(entryOf(this.decoder, dword0, dword1, by("layout").value, index));
    by("fields").replaceChildren(...rows.map(([name, words]) => {
      const row = document.createElement("tr");
      row.append(Object.assign(document.createElement("th"), { textContent: name, scope: "row" }));
      row.append(Object.assign(document.createElement("td"), { textContent: words }));
      return row;
    }));
  }
}

const number = (digits) => BigInt(`0x${digits}`);

// A line of an image or of a dump: an index and an entry's doublewords.
function fromText(text) {
  const image = /^0x([0-9a-f]+) ([0-9a-f]{16})([0-9a-f]{16})$/.exec(text ?? "");
  const dump = /^(?:[0-7] )? 0x([0-9a-f]+) 0x([0-9a-f]+) 0x([0-9a-f]+) [0-9]+$/.exec(text ?? "");
  if (!image && !dump) return null;
  const [index, dword0, dword1] = (image ?? dump).slice(1).map(number);
  return { index, dword0, dword1, from: image ? "of the image" : "of the dump" };
}

// The words that a call gave.
function fromReply(reply) {
  const form = /(?:^| )(H_READ|H_REMOVE) 0 0x([0-9a-f]+) 0x([0-9a-f]+).* \| 0x([0-9a-f]+)\./;
  const found = form.exec(reply ?? "");
  if (!found) return null;
  const [dword0, dword1, index] = found.slice(2).map(number);
  return { index, dword0, dword1, from: `as ${found[1]} shows them` };
}

// The words that a line of the trace gives.
function fromLine(line, reply) {
  const words = wordsOfLine(line ?? "");
  if (words[0] === "entry" && /^[0-9a-fA-F]{32}$/.test(words[3] ?? "")) {
    const [dword0, dword1] = [words[3].slice(0, 16), words[3].slice(16)].map(number);
    return { dword0, dword1, layout: words[1], index: readNumber(words[2]), from: "of the opening table" };
  }
  const at = words.indexOf("H_ENTER");
  const [dword0, dword1] = at < 0 ? [null, null] : [readNumber(words[at + 3]), readNumber(words[at + 4])];
  if (dword0 === null || dword1 === null) return null;
  const entered = /H_ENTER 0 (0x[0-9a-f]+)/.exec(reply ?? "");
  const index = entered ? BigInt(entered[1]) : null;
  return { dword0: dword0 | 1n, dword1, index, from: "as H_ENTER was given them, with V set" };
}
