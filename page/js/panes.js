// The trace and its replies side by side, line against line: two lists that scroll together, and a field for each in
// which it can be changed.

import { Lines } from "./lines.js";
import { List } from "./list.js";
import { LooseRows } from "./rows.js";

const ROW_HEIGHT = 20;
const MOST_SHOWN = 2_000; // bytes of a line
// Of a text that a field holds: a browser lays out all of it at once, and is soon slow at it.
const MOST_EDITED = 2 ** 19; // bytes
const MOST_EDITED_LINES = 2 ** 12;
const strict = new TextDecoder("utf-8", { fatal: true, ignoreBOM: true });
const NO_LINES = new Lines();

const by = (id) => document.getElementById(id);
const span = (kind, text) => {
  const element = document.createElement("span");
  element.className = kind;
  element.textContent = text;
  return element;
};

export class Panes {
  // `chosen(line, reply, own)` hears of a row that was chosen, by the places of what it shows, 0 for nothing; `own` is
  // the place of the text's line itself, which may be one below its reply's.
  constructor(chosen) {
    const list = (id, fill) =>
      new List(by(id), ROW_HEIGHT, { fill: fill.bind(this), chosen: (row) => this.choose(row, id === "replies") });
    this.left = list("trace", this.fillLeft);
    this.right = list("replies", this.fillRight);
    Object.assign(this, { chosen, trace: NO_LINES, text: NO_LINES, rows: new LooseRows(0, 0), marks: {} });
    this.touches = () => false;
    const follow = (from, to) => from.element.addEventListener("scroll", () => {
      if (!this.rows.isAligned) return;
      if (Math.abs(to.element.scrollTop - from.element.scrollTop) > 1) to.element.scrollTop = from.element.scrollTop;
    });
    follow(this.left, this.right);
    follow(this.right, this.left);
  }

  // Shows texts by rows. Marks are `refused`, a line, and `section`, a first and a last line.
  show(trace, text, rows, marks = {}) {
    Object.assign(this, { trace, text: text ?? NO_LINES, rows, marks, touches: () => false });
    for (const list of [this.left, this.right]) list.show(rows.count);
  }

  choose(row, isRight = false) {
    const { rows } = this;
    const head = rows.head(row);
    const [own, other] = isRight ? [this.right, this.left] : [this.left, this.right];
    own.select(row);
    other.select(rows.isAligned ? row : -1);
    if (rows.isAligned) this.chosen(rows.left(head), rows.right(head), rows.right(row));
    else this.chosen(isRight ? 0 : rows.left(row), 0, isRight ? rows.right(row) : 0);
  }

  // Marks the replies, by their places, that touch what is looked at.
  mark(touches) {
    this.touches = touches;
    this.right.draw();
  }

  fillLeft(element, row) {
    const line = this.rows.left(row);
    this.classes(element, row);
    if (line === 0) return;
    const words = this.trace.text(line - 1, MOST_SHOWN);
    element.append(span("number", String(line)), span(/^[ \t]*#/.test(words) ? "words remark" : "words", words));
  }

  fillRight(element, row) {
    const place = this.rows.right(row);
    this.classes(element, row);
    if (place === 0) return;
    const words = this.text.text(place - 1, MOST_SHOWN);
    const bar = words.indexOf(" |");
    const [head, receipts] = bar < 0 ? [words, ""] : [words.slice(0, bar), words.slice(bar)];
    element.append(span("words", head), span("receipts", receipts));
    element.classList.toggle("touches", this.touches(place - 1));
  }

  classes(element, row) {
    const line = this.rows.line(row);
    const { refused, section = null } = this.marks;
    element.classList.toggle("refused", refused !== undefined && line === refused);
    element.classList.toggle("section", section !== null && line >= section[0] && line <= section[1]);
  }
}

// A field in which a text can be changed, in place of its list.
export class Field {
  constructor(name, list) {
    Object.assign(this, { list, field: by(`${name}-field`), toggle: by(`${name}-edit`), changed: () => {} });
    this.toggle.addEventListener("click", () => this.open(!this.isOpen));
    this.field.addEventListener("input", () => this.changed(new TextEncoder().encode(this.field.value)));
    this.text = null;
  }

  get isOpen() {
    return this.toggle.getAttribute("aria-pressed") === "true";
  }

  // Takes lines; those that are too many, or no text, are shown alone.
  take({ bytes, count }) {
    let text = null;
    try {
      if (bytes.length <= MOST_EDITED && count <= MOST_EDITED_LINES) text = strict.decode(bytes);
    } catch {
      text = null;
    }
    this.toggle.disabled = text === null || text.includes("\r");
    this.toggle.title = this.toggle.disabled ? "too long to be changed here, or no plain text" : "";
    this.text = text ?? "";
    this.field.value = "";
    if (this.isOpen) this.open(!this.toggle.disabled);
  }

  // The field has a text only after it was opened: it is laid out line by line.
  open(isOpen) {
    if (isOpen && this.text !== null) [this.field.value, this.text] = [this.text, null];
    this.toggle.setAttribute("aria-pressed", String(isOpen));
    this.field.hidden = !isOpen;
    this.list.hidden = isOpen;
    if (isOpen) this.field.focus();
  }
}
