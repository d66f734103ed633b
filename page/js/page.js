// The page: what is chosen, opened and changed, what the program is called with, and what it answers.

import { Codes } from "./codes.js";
import { fromBase64, gunzip } from "./files.js";
import { Lines } from "./lines.js";
import { Field, Panes } from "./panes.js";
import { Decoder } from "./decoder.js";
import { EntryReader, Pictures } from "./pictures.js";
import { saidOf, saidOfSection } from "./outcomes.js";
import { NOT_GOOD, REFUSED } from "./program.js";
import { Refusals, refusalIn } from "./refusals.js";
import { receiptAt, touches } from "./replies.js";
import { AlignedRows, LooseRows } from "./rows.js";
import { Runner, STOPPED } from "./runner.js";
import { cutBehind, imageLine } from "./traces.js";
import { serveWorker } from "./worker.js";

const NOTHING = new Lines();
const SAVED = { run: "run.replies", check: "judged.replies", set: "set.replies", drill: "drill.summary" };
const MOST_LINE = 2_000; // bytes of a reply that is looked at
const MOST_CHIPS = 64; // a reply of the program has at most sixteen receipts
const by = (id) => document.getElementById(id);
const counted = (count, word) => `${count.toLocaleString("en")} ${word}${count === 1 ? "" : "s"}`;

// What the address names behind the page, or nothing, if it isn't well formed.
function fragment() {
  try {
    return decodeURIComponent(location.hash.slice(1));
  } catch {
    return "";
  }
}

class Page {
  constructor(module, decoder, data, source) {
    this.examples = data.examples;
    this.refusals = new Refusals(data.formats);
    this.codes = new Codes(data.formats.codes);
    this.runner = new Runner(module, source);
    this.panes = new Panes((line, reply, below) => this.chooseRow(line, reply, below));
    const mark = (part, entry) => this.panes.mark((reply) => touches(this.replies, reply, part, entry));
    this.pictures = new Pictures((line) => this.goTo(line), mark);
    this.reader = new EntryReader(decoder);
    this.traceField = new Field("trace", by("trace"));
    this.repliesField = new Field("replies", by("replies"));
    // `answered` are the replies of the last run of this trace, or null; they are judged until the user has others.
    Object.assign(this, { trace: NOTHING, judged: NOTHING, written: null, replies: null, answered: null, turn: 0 });
    this.answer = null;
    this.traceField.changed = (bytes) => this.change({ trace: new Lines(bytes), answered: null });
    this.repliesField.changed = (bytes) => this.change({ judged: new Lines(bytes) });
    this.listen();
  }

  get command() {
    return document.querySelector('input[name="command"]:checked').value;
  }

  listen() {
    for (const radio of document.querySelectorAll('input[name="command"]')) {
      radio.addEventListener("change", () => this.changeCommand());
    }
    by("example").replaceChildren(...Object.keys(this.examples).map((name) => new Option(name, name)));
    by("example").addEventListener("change", () => this.openExample(by("example").value));
    by("file").addEventListener("change", () => this.openFile(by("file").files[0]));
    by("open").addEventListener("click", () => by("file").click());
    by("go").addEventListener("click", () => this.run());
    by("stop").addEventListener("click", () => this.runner.start());
    by("save").addEventListener("click", () => this.save());
    by("behind").addEventListener("click", () => this.readBehind());
    addEventListener("hashchange", () => this.openHash());
    addEventListener("keydown", (event) => {
      if (event.key === "Enter" && (event.ctrlKey || event.metaKey)) this.run();
    });
    addEventListener("dragover", (event) => {
      event.preventDefault();
      document.body.classList.add("over");
    });
    addEventListener("dragleave", (event) => {
      if (event.relatedTarget === null) document.body.classList.remove("over");
    });
    addEventListener("drop", (event) => {
      event.preventDefault();
      document.body.classList.remove("over");
      this.openFile(event.dataTransfer.files[0], event.target.closest?.("#right") !== null);
    });
  }

  // ---- what is there

  choose(command) {
    const radio = document.querySelector(`input[name="command"][value="${command}"]`);
    if (radio === null) return false;
    radio.checked = true;
    this.changeCommand();
    return true;
  }

  changeCommand() {
    const { command } = this;
    document.body.dataset.command = command.split(" ")[0];
    by("drill").hidden = command !== "drill";
    by("replies-edit").hidden = command !== "check";
    by("right-title").textContent = { check: "Replies to judge", drill: "Summary", set: "Replies" }[command]
      ?? (command.startsWith("image") ? "Table at the end" : "Replies");
    if (command !== "check") this.repliesField.open(false);
    else if (this.judged.bytes.length === 0 && this.answered !== null) this.judged = this.answered;
    this.repliesField.take(this.judged);
    this.showGiven();
  }

  // A trace or a text to judge was changed: what was written stands for it no more.
  change(given) {
    Object.assign(this, given);
    this.showGiven();
  }

  // Shows what is given, before it is run.
  showGiven() {
    this.giveUp();
    const text = this.command === "check" ? this.judged : NOTHING;
    this.panes.show(this.trace, text, new LooseRows(this.trace.count, text.count));
    this.replies = null;
    this.pictures.take(null, 0);
    by("left-title").textContent = this.command === "set" ? "Set of partitions" : "Trace";
    by("left-size").textContent = counted(this.trace.count, "line");
    by("right-size").textContent = "";
    by("line").hidden = true;
    this.tell({ kind: "", words: "", told: [] });
  }

  // Has the worker open a file. One that is dropped on the right side is a text to judge.
  async open(name, file, command = null, isReplies = false) {
    const turn = this.begin("opening");
    let opened = null;
    try {
      opened = await this.runner.open({ name, file, command: isReplies ? "run" : command });
    } catch (error) {
      if (turn === this.turn) this.tell({ kind: "bad", words: `${name}: ${error.message}`, told: [] });
    }
    if (turn !== this.turn) return;
    this.end();
    if (opened === null) return;
    const [trace, judged] = [Lines.of(opened.trace), Lines.of(opened.judged)];
    if (isReplies) this.judged = trace;
    else this.give(name, trace, judged);
    this.choose(isReplies ? "check" : opened.command);
    await this.run();
  }

  give(name, trace, judged) {
    Object.assign(this, { trace, judged, written: null, answered: null });
    by("name").textContent = name;
    this.traceField.take(trace);
  }

  async openExample(name, command = null) {
    by("example").value = name;
    await this.open(name, new Blob([fromBase64(this.examples[name])]), command);
  }

  async openFile(file, isReplies = false) {
    if (!file) return;
    if (!isReplies) by("example").value = "";
    await this.open(file.name, file, null, isReplies);
  }

  // #EXAMPLE/COMMAND opens an example and runs it; #drill SEED LINES runs a drill; a third part is a line.
  async openHash() {
    const [name, command, line] = fragment().split("/");
    const drill = /^drill ([0-9]+) ([0-9]+)$/.exec(name);
    if (drill) {
      [by("seed").value, by("lines").value] = [drill[1], drill[2]];
      this.choose("drill");
      await this.run();
      return;
    }
    const names = Object.keys(this.examples);
    const found = names.find((it) => it === name) ?? names.find((it) => it.split(".")[0] === name) ?? names[0];
    const known = document.querySelector(`input[name="command"][value="${CSS.escape(command ?? "")}"]`);
    await this.openExample(found, known ? known.value : null);
    if (line) this.goTo(Number(line));
  }

  // ---- what is run

  async run() {
    const { command, trace, judged } = this;
    const words = command.split(" ");
    if (command === "drill") words.push(by("seed").value.trim(), by("lines").value.trim());
    for (const field of [this.traceField, this.repliesField]) field.open(false);
    const turn = this.begin("running");
    document.body.dataset.pictures = "waiting";
    this.answer = null;
    const told = ({ answer, part }) => {
      if (turn !== this.turn) return;
      if (answer) this.showAnswer(command, answer);
      else by("progress").value = part;
    };
    const [given, other] = [command === "drill" ? NOTHING : trace, command === "check" ? judged : NOTHING];
    try {
      const outcome = await this.runner.call({ command, words, trace: given, judged: other }, told);
      if (turn === this.turn) this.show(command, outcome);
    } catch (error) {
      if (turn === this.turn) this.tellError(error);
    }
    if (turn !== this.turn) return;
    this.end();
    await this.draw(turn);
  }

  // A job that is still on its way is ended, and shows nothing.
  giveUp() {
    this.turn += 1;
    if (document.body.dataset.state !== "running") return;
    this.runner.start();
    this.end();
  }

  begin(label) {
    this.giveUp();
    document.body.dataset.state = "running";
    by("progress").removeAttribute("value");
    by("progress-label").textContent = label;
    const began = performance.now();
    this.clock = setInterval(() => {
      by("elapsed").textContent = `${((performance.now() - began) / 1000).toFixed(1)} s`;
    }, 100);
    return this.turn;
  }

  end() {
    clearInterval(this.clock);
    by("elapsed").textContent = "";
    document.body.dataset.state = "done";
  }

  // The status is told as soon as it is known. What is shown of the text comes after it, and takes nothing of it back.
  showAnswer(command, answer) {
    this.answer = answer;
    const { status, ms, memory, length } = answer;
    Object.assign(document.body.dataset, { status, ms: ms.toFixed(1), memory });
    by("took").textContent = `in ${ms.toFixed(ms < 10 ? 1 : 0)} ms, ${counted(length, "byte")} written`;
    by("progress-label").textContent = "reading the replies";
    this.tell(saidOf(command, answer, this.refusals, this.trace));
  }

  show(command, outcome) {
    const { replies, section } = outcome;
    const [{ status, said }, written] = [this.answer, Lines.of(outcome.written)];
    Object.assign(this, { written, replies });
    if (command === "run") {
      // What is judged next are these replies, unless the user has put others there.
      if (this.judged === this.answered) this.judged = NOTHING;
      this.answered = status === 0 ? written : null;
    }
    const trace = command === "drill" ? NOTHING : this.trace;
    const text = command === "check" && replies ? this.judged : written;
    const rows = outcome.rows ? new AlignedRows(outcome.rows) : new LooseRows(trace.count, text.count);
    const refused = status === REFUSED ? refusalIn(said)?.line : undefined;
    this.panes.show(trace, text, rows, { refused, section });
    by("right-size").textContent = counted(text.count, "line");
    if (refused >= 1) this.goTo(refused);
    if (command === "check" && status === NOT_GOOD) this.tellMore(saidOfSection(said, section));
    if (section) this.scrollTo(section[0]);
  }

  // Draws after the lists have been seen. What goes wrong here is told beside the pictures alone.
  async draw(turn) {
    const { pictures } = this;
    try {
      for (const step of [() => pictures.take(this.replies, this.trace.count), () => pictures.begin()]) {
        await new Promise((resolve) => setTimeout(resolve)); // the page answers between them
        if (turn !== this.turn) return;
        step();
      }
      document.body.dataset.pictures = "drawn";
    } catch (error) {
      pictures.fail(error.message);
      document.body.dataset.pictures = "failed";
    }
  }

  tell({ kind, words, told }) {
    by("status").className = kind;
    by("status").textContent = words;
    if (kind === "") by("took").textContent = "";
    by("told").replaceChildren();
    by("told").hidden = true;
    for (const sentence of told) this.tellMore(sentence);
  }

  tellMore(sentence) {
    by("told").append(Object.assign(document.createElement("p"), { textContent: sentence }));
    by("told").hidden = false;
  }

  // An answer that the program has given stays, whatever became of its text.
  tellError({ message }) {
    this.replies = null;
    if (this.answer !== null) this.tellMore(`The lists aren't shown: ${message}.`);
    else this.tell({ kind: "bad", words: message === STOPPED ? STOPPED : `the program didn't end: ${message}`, told: [] });
  }

  // ---- what is looked at

  scrollTo(line) {
    const row = this.panes.rows.rowOf(line);
    if (row >= 0) for (const list of [this.panes.left, this.panes.right]) list.scrollTo(Math.max(0, row - 2));
  }

  goTo(line) {
    const row = this.panes.rows.rowOf(line);
    if (row >= 0) this.panes.choose(row);
  }

  // A row was chosen: its line, its reply and its receipts are shown, and their entries marked.
  chooseRow(line, reply, below) {
    const textOf = (place) => (place > 0 ? this.panes.text.text(place - 1, MOST_LINE) : "");
    const words = line > 0 ? this.panes.trace.text(line - 1) : "";
    const receipts = this.replies !== null && reply > 0 ? this.receiptsOf(reply - 1) : [];
    by("line").hidden = line === 0;
    by("line-number").textContent = line > 0 ? `Line ${line}` : "";
    by("line-words").textContent = words.slice(0, 500);
    by("line-reply").textContent = this.codes.named(textOf(reply).split(" |")[0], this.command === "set");
    by("line-receipts").replaceChildren(...receipts.map((receipt) => this.chip(receipt)));
    const isOfTable = receipts.some((it) => it.isOfTable);
    by("behind").hidden = !(this.command === "run" && line > 0 && isOfTable);
    this.reader.offer(words, textOf(below));
    if (receipts.length > 0 || line > 0) this.pictures.chooseLine(line, receipts, this.replies?.part[reply - 1]);
  }

  receiptsOf(reply) {
    const { first } = this.replies;
    const [from, to] = [first[reply], first[reply + 1]];
    return Array.from({ length: Math.min(MOST_CHIPS, to - from) }, (_, at) => receiptAt(this.replies, from + at));
  }

  chip(receipt) {
    const { entry, stamp, bits, answer, isWindow, isOfTable, isChange } = receipt;
    const chip = document.createElement("button");
    chip.className = isChange ? "chip change" : "chip";
    chip.textContent = `0x${entry.toString(16)} ${answer}`;
    chip.title = `stamp ${stamp}, R ${bits >> 1}, C ${bits & 1} before${isWindow ? "; an entry of a DMA window" : ""}`;
    chip.disabled = !isOfTable;
    chip.addEventListener("click", () => this.pictures.chooseEntry(entry));
    return chip;
  }

  // The entry that is looked at, as the table has it behind the chosen line: the image of the trace up to there.
  async readBehind() {
    const [line, { entry }] = [this.pictures.line, this.pictures];
    const task = { command: "image", words: ["image", "old"], trace: cutBehind(this.trace, line), judged: NOTHING };
    const { written } = await this.runner.call(task, () => {});
    const name = `0x${entry.toString(16)}`;
    const found = imageLine(Lines.of(written), entry);
    if (found === null) by("entry-from").textContent = `entry ${name} isn't valid after line ${line}`;
    else {
      this.reader.offer("", found);
      by("entry-from").textContent = `entry ${name} after line ${line}, as image old has it`;
    }
  }

  save() {
    const lines = this.command === "check" ? this.judged : this.written;
    if (lines === null) return;
    const link = document.createElement("a");
    link.href = URL.createObjectURL(new Blob([lines.bytes], { type: "text/plain" }));
    link.download = SAVED[this.command] ?? "table.image";
    link.click();
    setTimeout(() => URL.revokeObjectURL(link.href), 1_000);
  }
}

async function openPage() {
  const source = by("script").textContent;
  const data = JSON.parse(by("data").textContent);
  const module = await gunzip(fromBase64(by("module").textContent));
  const page = new Page(module, await Decoder.of(module), data, source);
  await page.openHash();
}

if (typeof document === "undefined") serveWorker();
else {
  openPage().catch((error) => {
    by("status").className = "bad";
    by("status").textContent = `this page can't start here: ${error.message}`;
    document.body.dataset.state = "failed";
  });
}
