// The history of one entry, drawn as tools/entry-history draws it: columns are receipts, rows the processors.

import { wordsOf } from "./replies.js";

// Measures of the picture, in pixels: those of the tool, so that both draw the same points.
const [LEFT, RIGHT, COLUMN, LANE, STRIP, GAP] = [104, 96, 30, 46, 18, 7];
const [HEAD, FOOT, LEGEND_ROW, NARROWEST, WIDEST] = [38, 30, 22, 620, 1_600];
const MARK = 8;
const WIDTH_OF_LETTER = 5.7; // of the turned words above the columns
const A_BAND = Math.floor((WIDEST - LEFT - RIGHT) / COLUMN) - 1; // columns side by side
export const MOST_COLUMNS = 1_000;

const [GREEN, RED, BLUE, ORANGE, VIOLET, SKY, GREY] =
  ["#009e73", "#d55e00", "#0072b2", "#e69f00", "#cc79a7", "#56b4e9", "#8c959f"];

// How a receipt is drawn: colour, the corners of its mark around the middle (none: a circle), words.
const UP = [[0, -9], [9, 7], [-9, 7]];
const DOWN = [[0, 9], [9, -7], [-9, -7]];
const DIAMOND = [[0, -9], [9, 0], [0, 9], [-9, 0]];
const SQUARE = [[-7, -7], [7, -7], [7, 7], [-7, 7]];
const LOOKS = {
  entered: [GREEN, UP, "entered"],
  removed: [RED, DOWN, "removed"],
  protected: [BLUE, DIAMOND, "protected"],
  was: [ORANGE, SQUARE, "R or C cleared"],
  at: [VIOLET, [], "access that set R or C"],
};
const UNCHANGED = [GREY, [], "changed nothing"];
const REFUSED = [GREY, [], "refused, or not found"];
const REFUSALS = new Set(["taken", "notfound", "nomatch", "denied", "masked", "worn"]);
const STRIPS = ["#5fbf9f", SKY, ORANGE]; // valid, R, C
const NAMES = ["valid", "R", "C", "stamp"];
const UNKNOWN = "the replies don't tell";

function lookOf(receipt) {
  if (receipt.isChange) return LOOKS[receipt.answer];
  return REFUSALS.has(receipt.answer) ? REFUSED : UNCHANGED;
}

// Whether the entry was valid before a receipt, where the answer tells; else null.
function validBefore({ answer }) {
  if (["denied", "masked", "taken"].includes(answer)) return true;
  if (answer === "entered") return false;
  return ["removed", "protected", "was", "at"].includes(answer) ? true : null;
}

// Whether the entry is valid before each receipt of one table, and after the last one.
function validSpans(receipts) {
  const spans = [...receipts.map(validBefore), null];
  // A run begins with an empty table.
  if (spans[0] === null && receipts[0].stamp === 0 && receipts[0].table === 0) spans[0] = false;
  receipts.forEach(({ answer }, at) => {
    if (spans[at + 1] !== null) return;
    if (answer === "entered") spans[at + 1] = true;
    else spans[at + 1] = answer === "removed" ? false : spans[at];
  });
  for (let at = receipts.length - 1; at >= 0; at -= 1) spans[at] ??= spans[at + 1]; // this receipt changed nothing
  return spans;
}

// The entry's states in one table: before each receipt, and after the last one.
function spansOf(receipts) {
  const valid = validSpans(receipts);
  const spans = receipts.map(({ stamp, bits }, at) => ({ stamp, bits, valid: valid[at] }));
  const last = receipts[receipts.length - 1];
  const hasNewStamp = last.isChange && last.answer !== "at";
  return [...spans, { stamp: last.stamp + (hasNewStamp ? 1 : 0), bits: last.bitsAfter, valid: valid[receipts.length] }];
}

function byTable(receipts) {
  const groups = new Map();
  for (const receipt of receipts) groups.set(receipt.table, [...(groups.get(receipt.table) ?? []), receipt]);
  return [...groups.values()];
}

// The receipts in bands of so many columns, with a free column before each further table.
function bandsOf(receipts) {
  const bands = [[]];
  let [column, isNewTable] = [0, false];
  for (let left of byTable(receipts)) {
    let spans = spansOf(left);
    while (left.length > 0) {
      if (column >= A_BAND) {
        bands.push([]);
        column = 0;
      }
      const count = Math.min(left.length, A_BAND - column);
      const own = { receipts: left.slice(0, count), spans: spans.slice(0, count + 1) };
      bands[bands.length - 1].push({ first: column, ...own, isNewTable });
      [left, spans] = [left.slice(count), spans.slice(count)];
      [column, isNewTable] = [column + count, false];
    }
    [column, isNewTable] = [column + 1, true];
  }
  return bands;
}

// The horizontal middle of a column.
function middle(column) {
  return LEFT + COLUMN * (column + 1);
}

function escaped(words) {
  return String(words).replaceAll("&", "&amp;").replaceAll("<", "&lt;");
}

function text(words, x, y, more = "") {
  return `<text x="${x}" y="${y}" ${more}>${escaped(words)}</text>`;
}

// Text that runs up to the right.
function turned(words, x, y, more = "") {
  return text(words, x, y, `transform="rotate(-52 ${x} ${y})" ${more}`);
}

function box(x, y, width, height, kind, more = "") {
  return `<rect class="${kind}" x="${x}" y="${y}" width="${width}" height="${height}" ${more}/>`;
}

// The mark of a receipt, with the whole receipt as a tooltip.
function mark(receipt, x, y) {
  const [colour, corners] = lookOf(receipt);
  const close = (tag) => `><title>${escaped(wordsOf(receipt))}</title></${tag}>`;
  const isHollow = !receipt.isChange && !REFUSALS.has(receipt.answer);
  const head = `class="mark${isHollow ? " hollow" : ""}" data-line="${receipt.line}"`;
  if (corners.length > 0) {
    const points = corners.map(([dx, dy]) => `${x + dx},${y + dy}`).join(" ");
    return `<polygon ${head} points="${points}" fill="${colour}"${close("polygon")}`;
  }
  if (receipt.isChange) return `<circle ${head} cx="${x}" cy="${y}" r="${MARK}" fill="${colour}"${close("circle")}`;
  if (isHollow) {
    const ring = `r="${MARK - 3}" stroke="${colour}" stroke-width="2"`;
    return `<circle ${head} cx="${x}" cy="${y}" ${ring}${close("circle")}`;
  }
  const path = `M${x - 5},${y - 5}l10,10M${x + 5},${y - 5}l-10,10`;
  return `<path ${head} d="${path}" stroke="${colour}" stroke-width="2" fill="none"${close("path")}`;
}

// A part of the picture that has one row of columns, and where things lie in it.
class Band {
  constructor(parts, cpus, top) {
    const receipts = parts.flatMap((part) => part.receipts);
    const longest = Math.max(...receipts.map(({ call, answer }) => call.length + 1 + answer.length));
    Object.assign(this, { parts, cpus });
    this.top = top + 20 + Math.trunc(longest * WIDTH_OF_LETTER);
    this.strips = this.top + LANE * cpus.length + 16;
    this.feet = this.strips + 4 * (STRIP + GAP);
    this.end = this.feet + FOOT + 6 * String(Math.max(...receipts.map(({ line }) => line))).length;
    const last = parts[parts.length - 1];
    this.right = middle(last.first + last.receipts.length);
  }

  draw(selected) {
    return this.frame() + this.parts.map((part) => this.part(part, selected)).join("");
  }

  // The lanes and the names of the rows.
  frame() {
    const lanes = this.cpus.map((cpu, at) => {
      const top = this.top + LANE * at;
      const lane = box(LEFT, top, this.right - LEFT, LANE, at % 2 === 0 ? "lane" : "lane odd");
      return lane + text(`processor ${cpu}`, 16, top + LANE / 2 + 4, 'class="name"');
    });
    const names = NAMES.map((name, at) => text(name, 16, this.strips + at * (STRIP + GAP) + STRIP - 5, 'class="name"'));
    return lanes.join("") + names.join("") + text("line", 16, this.feet + 13, 'class="name"');
  }

  // The receipts of one table, and the entry's states between them.
  part(part, selected) {
    const states = part.spans;
    const bit = (of) => states.map(({ bits }) => (bits === null ? null : (bits & of) !== 0));
    const rows = [states.map(({ valid }) => valid), bit(2), bit(1)];
    const strips = rows.map((values, row) => this.strip(part, row, values));
    const receipts = part.receipts.map((receipt, at) => this.receipt(receipt, part.first + at));
    const table = part.isNewTable ? this.newTable(part) : "";
    return [this.here(part, selected), ...strips, this.stamps(part), ...receipts, table].join("");
  }

  // The columns of the chosen line.
  here(part, selected) {
    const columns = part.receipts.flatMap(({ line }, at) => (line === selected ? [part.first + at] : []));
    return columns.map((it) => box(middle(it) - COLUMN / 2, this.top, COLUMN, this.feet - this.top, "here")).join("");
  }

  // A bar over the columns: filled, empty, or grey where the replies don't tell.
  strip(part, row, values) {
    const y = this.strips + row * (STRIP + GAP);
    return runs(values).map(([start, end, value]) => {
      const [left, right] = edges(part, start, end);
      const bar = (kind, more) => box(left, y, right - left, STRIP, kind, more);
      if (value === null) return bar("strip unknown") + centred("?", (left + right) / 2, y, "small");
      return value ? bar("strip", `fill="${STRIPS[row]}"`) : bar("strip clear");
    }).join("");
  }

  stamps(part) {
    const y = this.strips + 3 * (STRIP + GAP);
    return runs(part.spans.map(({ stamp }) => stamp)).map(([start, end, stamp]) => {
      const [left, right] = edges(part, start, end);
      return box(left + 1, y, right - left - 2, STRIP, "strip stamp") + centred(stamp, (left + right) / 2, y, "num");
    }).join("");
  }

  // Its call above, its mark in the lane, its line below, and where it changed the entry.
  receipt(receipt, column) {
    const [x, y] = [middle(column), this.top + LANE * this.cpus.indexOf(receipt.cpu) + LANE / 2];
    let out = "";
    if (receipt.isChange) {
      // An access leaves the stamp as it is.
      const end = this.feet - (receipt.answer === "at" ? STRIP + 2 * GAP : GAP);
      const dashed = 'stroke-width="1.5" stroke-dasharray="3,2"';
      out += `<line x1="${x}" y1="${y}" x2="${x}" y2="${end}" stroke="${lookOf(receipt)[0]}" ${dashed}/>`;
    }
    out += mark(receipt, x, y) + turned(`${receipt.call} ${receipt.answer}`, x + 4, this.top - 8);
    return out + turned(receipt.line, x + 5, this.feet + 8, 'text-anchor="end" class="num"');
  }

  newTable(part) {
    const x = middle(part.first - 1);
    const ends = `x1="${x}" y1="${this.top}" x2="${x}" y2="${this.feet - GAP}"`;
    return `<line class="new-table" ${ends} stroke-width="2"/>` + turned("new table", x + 4, this.top - 8);
  }
}

// Each stretch of equal values: its first place, one past its last, and the value.
function runs(values) {
  const found = [];
  values.forEach((value, at) => {
    const last = found[found.length - 1];
    if (last && last[2] === value) last[1] = at + 1;
    else found.push([at, at + 1, value]);
  });
  return found;
}

// Where a stretch of states begins and ends.
function edges(part, start, end) {
  return [middle(part.first + start - 1), middle(part.first + end - 1)];
}

// Text in the middle of a strip whose top is at y.
function centred(words, x, y, kind) {
  return text(words, x, y + STRIP - 5, `text-anchor="middle" class="${kind}"`);
}

// The marks that occur, with words.
function legend(receipts, hasUnknown, width, top) {
  let [x, y, out] = [24, top, ""];
  const looks = new Map();
  for (const receipt of receipts) if (!looks.has(lookOf(receipt)[2])) looks.set(lookOf(receipt)[2], receipt);
  if (hasUnknown) looks.set(UNKNOWN, null);
  for (const [words, receipt] of looks) {
    const taken = 34 + 6.4 * words.length;
    if (x + taken > width) [x, y] = [24, y + LEGEND_ROW];
    const unknown = () => box(x - 9, y - 8, 18, 16, "strip unknown") + text("?", x, y + 4, 'text-anchor="middle" class="small"');
    out += (receipt === null ? unknown() : mark(receipt, x, y)) + text(words, x + 15, y + 4);
    x += taken;
  }
  return [`<g class="legend">${out}</g>`, y + LEGEND_ROW];
}

// The picture of at most MOST_COLUMNS receipts, as parts that stand below each other: a band each, and the legend. The
// column of the selected line is marked. A part has a size, so that a browser can leave out what isn't seen.
export function drawHistory(receipts, selected) {
  const bands = bandsOf(receipts);
  const columns = Math.max(...bands.map((parts) => {
    const last = parts[parts.length - 1];
    return last.first + last.receipts.length;
  }));
  const width = Math.max(NARROWEST, middle(columns) + RIGHT);
  const cpus = [...new Set(receipts.map(({ cpu }) => cpu))].sort((a, b) => a - b);
  const drawn = [];
  let end = HEAD;
  for (const parts of bands) {
    const band = new Band(parts, cpus, end);
    drawn.push(partOf(band.draw(selected), width, end, band.end));
    end = band.end;
  }
  const spans = bands.flatMap((parts) => parts.flatMap((part) => part.spans));
  const hasUnknown = spans.some(({ valid, bits }) => valid === null || bits === null);
  const [marks, height] = legend(receipts, hasUnknown, width, end + 10);
  return [...drawn, partOf(marks, width, end, height)];
}

function partOf(drawn, width, top, end) {
  const sizes = `width="${width}" height="${end - top}" viewBox="0 ${top} ${width} ${end - top}"`;
  return { width, height: end - top, svg: `<svg ${sizes} role="img">${drawn}</svg>` };
}
