// Line against line: rows that have a line of the trace on the left and its reply on the right. Where a reply has more
// lines, as a dump has, or belongs to no line of the trace, the row has nothing on the left.

const NONE = 0;

// What an aligned table of rows is made of: of each row the line of the trace that it belongs to, which never falls, and
// the line of the text, both from 1 on and 0 for none. `of` is the trace's line of each line of the text.
export function alignedRows(traceCount, of) {
  const lines = new Uint32Array(traceCount + of.length);
  const texts = new Uint32Array(traceCount + of.length);
  let rows = 0;
  let line = 0;
  const upTo = (last) => {
    for (; line < last; rows += 1) {
      line += 1;
      lines[rows] = line;
    }
  };
  for (let at = 0; at < of.length; at += 1) {
    if (of[at] > line && of[at] <= traceCount) upTo(of[at]);
    else {
      lines[rows] = line;
      rows += 1;
    }
    texts[rows - 1] = at + 1;
  }
  upTo(traceCount);
  return { lines: lines.slice(0, rows), texts: texts.slice(0, rows) };
}

export class AlignedRows {
  constructor({ lines, texts }) {
    Object.assign(this, { lines, texts, isAligned: true });
  }

  get count() {
    return this.lines.length;
  }

  // The line of the trace that a row belongs to, or none.
  line(row) {
    return this.lines[row] ?? NONE;
  }

  // What stands on the left of a row: its line, if the row is the line's first.
  left(row) {
    return this.line(row) === this.line(row - 1) ? NONE : this.line(row);
  }

  right(row) {
    return this.texts[row] ?? NONE;
  }

  // The first row that belongs to a line of the trace, or to a later one.
  firstOf(line) {
    let [low, high] = [0, this.count];
    while (low < high) {
      const middle = (low + high) >> 1;
      if (this.lines[middle] < line) low = middle + 1;
      else high = middle;
    }
    return low;
  }

  // The row of a line of the trace, from 1 on, or -1.
  rowOf(line) {
    const row = this.firstOf(line);
    return line > NONE && this.lines[row] === line ? row : -1;
  }

  // The row whose reply this one's text belongs to: itself, or the nearest above that has a line of the trace.
  head(row) {
    return this.firstOf(this.line(row));
  }
}

// Two texts side by side that have nothing to do with each other.
export class LooseRows {
  constructor(traceCount, textCount) {
    Object.assign(this, { traceCount, textCount, isAligned: false });
  }

  get count() {
    return Math.max(this.traceCount, this.textCount);
  }

  line() {
    return NONE;
  }

  left(row) {
    return row < this.traceCount ? row + 1 : NONE;
  }

  right(row) {
    return row < this.textCount ? row + 1 : NONE;
  }

  rowOf(line) {
    return Number.isInteger(line) && line > NONE && line <= this.traceCount ? line - 1 : -1;
  }

  head(row) {
    return row;
  }
}
