// A list of which only what is seen is drawn. It may be longer than a browser lets an element be.

const TALLEST = 6_000_000; // pixels that every engine lays out
const BEYOND = 6; // rows drawn above and below

export class List {
  // `fill(element, row)` gives an element what stands in a row; `chosen(row)` hears of a choice.
  constructor(element, rowHeight, { fill, chosen }) {
    Object.assign(this, { element, rowHeight, fill, chosen, count: 0, selected: -1 });
    this.sizer = element.appendChild(document.createElement("div"));
    this.sizer.className = "sizer";
    this.drawn = this.sizer.appendChild(document.createElement("div"));
    this.drawn.className = "drawn";
    element.addEventListener("scroll", () => this.draw());
    element.addEventListener("keydown", (event) => this.key(event));
    this.drawn.addEventListener("click", (event) => {
      const row = event.target.closest("[data-row]");
      if (row) this.choose(Number(row.dataset.row));
    });
    new ResizeObserver(() => this.draw()).observe(element);
  }

  get seen() {
    return Math.max(1, Math.floor(this.element.clientHeight / this.rowHeight));
  }

  get height() {
    return Math.min(TALLEST, this.count * this.rowHeight);
  }

  // The first row that is seen, perhaps with a fraction.
  get top() {
    const room = this.height - this.element.clientHeight;
    if (room <= 0) return 0;
    const all = this.count * this.rowHeight - this.element.clientHeight;
    return (Math.min(1, this.element.scrollTop / room) * all) / this.rowHeight;
  }

  show(count) {
    this.count = count;
    this.selected = -1;
    this.sizer.style.height = `${this.height}px`;
    this.element.scrollTop = 0;
    this.element.scrollLeft = 0;
    this.draw();
  }

  draw() {
    const top = this.top;
    const first = Math.max(0, Math.floor(top) - BEYOND);
    const last = Math.min(this.count, Math.ceil(top) + this.seen + BEYOND);
    const rows = [];
    for (let row = first; row < last; row += 1) {
      const element = document.createElement("div");
      element.className = row === this.selected ? "row selected" : "row";
      element.dataset.row = row;
      element.id = `${this.element.id}-${row}`;
      element.setAttribute("role", "option");
      element.setAttribute("aria-selected", row === this.selected);
      this.fill(element, row);
      rows.push(element);
    }
    this.drawn.style.transform = `translateY(${this.element.scrollTop - (top - first) * this.rowHeight}px)`;
    this.drawn.replaceChildren(...rows);
    if (this.selected >= first && this.selected < last) {
      this.element.setAttribute("aria-activedescendant", `${this.element.id}-${this.selected}`);
    } else this.element.removeAttribute("aria-activedescendant");
  }

  // Selects a row and brings it into view.
  select(row) {
    this.selected = row;
    const top = this.top;
    if (row < 0) this.element.removeAttribute("aria-activedescendant");
    else if (row < top || row + 1 > top + this.seen) this.scrollTo(row - Math.floor(this.seen / 3));
    this.draw();
  }

  scrollTo(row) {
    const all = this.count * this.rowHeight - this.element.clientHeight;
    const room = this.height - this.element.clientHeight;
    this.element.scrollTop = all <= 0 ? 0 : (Math.max(0, row * this.rowHeight) / all) * room;
  }

  choose(row) {
    if (this.count === 0) return;
    const chosen = Math.max(0, Math.min(this.count - 1, row));
    this.select(chosen);
    this.chosen(chosen);
  }

  key(event) {
    const { seen, count } = this;
    const steps = { ArrowDown: 1, ArrowUp: -1, PageDown: seen, PageUp: -seen, Home: -count, End: count };
    const step = steps[event.key];
    if (step === undefined || event.ctrlKey || event.metaKey || event.altKey) return;
    event.preventDefault();
    this.choose(this.selected < 0 && step === 1 ? Math.ceil(this.top) : this.selected + step);
  }
}
