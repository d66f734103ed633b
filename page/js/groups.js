// The table as a map of its groups, by how many receipts each has, drawn as tools/run-picture draws it. Up to any line:
// the colours are those of the whole run, so that the map only darkens as time goes on.

import { countsOf } from "./histories.js";
import { isOfTable } from "./replies.js";

const [CELL, COLUMNS, ROWS] = [14, 64, 32];
const [A_GROUP, LEAST_GROUPS] = [8, 2 ** 11]; // entries of a group, and groups of the smallest table
const NAMED = 5;
const [MARGIN, TOP] = [62, 6];
// From few to many; they differ in lightness, so that they differ without colour too.
export const HEAT = ["#eaeef2", "#cde2f5", "#a3c9ea", "#73abdb", "#4389c8", "#1f68ae", "#0a4a8c", "#032a57"];

// Python's rounding, which the tool has: a half goes to the even number.
function rounded(value) {
  const low = Math.floor(value);
  if (value - low !== 0.5) return Math.round(value);
  return low % 2 === 0 ? low : low + 1;
}

// The colour of a cell with so many receipts: 0 for none, then by the logarithm.
export function levelOf(count, most) {
  if (count === 0) return 0;
  const steps = HEAT.length - 2;
  return 1 + (most > 1 ? rounded((steps * Math.log(count)) / Math.log(most)) : steps);
}

// The smallest and the largest count of each colour that has one.
function boundsOf(most) {
  const bounds = HEAT.map(() => null);
  for (let count = 0; count <= most; ) {
    const level = levelOf(count, most);
    let [low, high] = [count, most];
    while (low < high) {
      const half = Math.ceil((low + high) / 2);
      if (levelOf(half, most) === level) low = half;
      else high = half - 1;
    }
    bounds[level] = [count, low];
    count = low + 1;
  }
  return bounds;
}

// The places with the highest counts, and these: of as many, the one that came first.
function highest(counts, number) {
  let found = [];
  let least = 0;
  const cut = () => {
    found = found.sort((a, b) => b[1] - a[1] || a[0] - b[0]).slice(0, number);
    if (found.length === number) least = found[number - 1][1];
  };
  counts.forEach((count, place) => {
    if (count <= least) return;
    found.push([place, count]);
    if (found.length === 4 * number) cut();
  });
  cut();
  return found;
}

// The receipts of a run's page table, or of one partition's, by groups.
export class Groups {
  constructor(replies, part) {
    Object.assign(this, { replies, part });
    this.all = this.countsUpTo(Infinity);
    const highest = this.all.reduce((most, count, group) => (count > 0 ? group : most), 0);
    let groups = LEAST_GROUPS;
    while (groups <= highest) groups *= 2;
    this.aCell = groups / (COLUMNS * ROWS);
    this.most = this.cells(this.all).reduce((most, count) => Math.max(most, count), 0);
  }

  // How many receipts each entry has in the replies of the trace's lines up to this one.
  entriesUpTo(line) {
    if (line === Infinity) return countsOf(this.replies, this.part);
    const { reply, entry, part, of, span } = this.replies;
    const counts = new Uint32Array(span);
    for (let at = 0; at < entry.length; at += 1) {
      const isCounted = of[reply[at]] <= line && part[reply[at]] === this.part && isOfTable(this.replies, at);
      if (isCounted) counts[entry[at]] += 1;
    }
    return counts;
  }

  // The same by groups.
  countsUpTo(line) {
    const entries = this.entriesUpTo(line);
    const counts = new Uint32Array(Math.max(LEAST_GROUPS, Math.ceil(entries.length / A_GROUP)));
    for (let entry = 0; entry < entries.length; entry += 1) counts[Math.floor(entry / A_GROUP)] += entries[entry];
    return counts;
  }

  cells(counts) {
    const cells = new Uint32Array(COLUMNS * ROWS);
    counts.forEach((count, group) => {
      cells[Math.floor(group / this.aCell)] += count;
    });
    return cells;
  }

  // The busiest groups with their counts: of as many, the one that came first.
  busiest(counts) {
    return highest(counts, NAMED);
  }

  // The map at a line, with the cells of the chosen entries ringed.
  draw(line, chosen) {
    const cells = this.cells(line === Infinity ? this.all : this.countsUpTo(line));
    const paths = new Map();
    cells.forEach((count, cell) => {
      const [x, y] = this.place(cell);
      const level = levelOf(count, this.most);
      paths.set(level, `${paths.get(level) ?? ""}M${x},${y}h${CELL - 1}v${CELL - 1}h${1 - CELL}z`);
    });
    const levels = [...paths].sort(([a], [b]) => a - b);
    const drawn = levels.map(([level, path]) => `<path class="heat-${level}" d="${path}"/>`);
    const names = Array.from({ length: ROWS / 8 }, (_, at) => {
      const entry = at * 8 * COLUMNS * this.aCell * A_GROUP;
      const y = TOP + at * 8 * CELL + 11;
      return `<text class="num" x="${MARGIN - 8}" y="${y}" text-anchor="end">0x${entry.toString(16)}</text>`;
    });
    const rings = [...new Set(chosen.map((entry) => this.cellOf(entry)))].map((cell) => {
      const [x, y] = this.place(cell);
      return `<rect class="ring" x="${x - 2}" y="${y - 2}" width="${CELL + 3}" height="${CELL + 3}"/>`;
    });
    const [width, height] = [MARGIN + COLUMNS * CELL + 2, TOP + ROWS * CELL + 2];
    const label = "the groups of the table by their receipts";
    const all = [...drawn, ...names, ...rings].join("");
    return `<svg viewBox="0 0 ${width} ${height}" role="img" aria-label="${label}">${all}</svg>`;
  }

  place(cell) {
    return [MARGIN + (cell % COLUMNS) * CELL, TOP + Math.floor(cell / COLUMNS) * CELL];
  }

  cellOf(entry) {
    return Math.floor(Math.floor(entry / A_GROUP) / this.aCell);
  }

  // The entries of the cell at a place of the map, as a first entry and a count, or null.
  at(x, y) {
    const [column, row] = [Math.floor((x - MARGIN) / CELL), Math.floor((y - TOP) / CELL)];
    if (column < 0 || column >= COLUMNS || row < 0 || row >= ROWS) return null;
    const each = this.aCell * A_GROUP;
    const cell = row * COLUMNS + column;
    return { first: cell * each, count: each, receipts: this.cells(this.all)[cell] };
  }

  // The colours and the counts that they stand for.
  scale() {
    const colours = boundsOf(this.most).map((bound, level) => bound && { level, low: bound[0], high: bound[1] });
    return colours.filter((it) => it !== null);
  }

  // The page table's entries with the most receipts, up to a number.
  busiestEntries(number) {
    return highest(this.entriesUpTo(Infinity), number);
  }
}
