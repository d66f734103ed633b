// Why a line is refused: the rule of its reason, and the form that such a line has. The words are those of FORMATS.md,
// whose tables the build puts into the page.

import { wordsOfLine } from "./traces.js";

const REFUSED = /^papr: line ([0-9]+): ([a-z]+)\n?$/;
const NO_LAYOUT = /^papr: entry (0x[0-9a-f]+): layout\n?$/;

// What a refusal's text says: a line and a reason, or an entry that a layout has no place for; else null.
export function refusalIn(text) {
  const line = REFUSED.exec(text);
  if (line) return { line: Number(line[1]), reason: line[2] };
  const entry = NO_LAYOUT.exec(text);
  return entry ? { entry: entry[1], reason: "layout" } : null;
}

// `formats` has `rules` and `setRules` (a reason and its rule), `settings` and `runLines` (a form, what is accepted).
export class Refusals {
  constructor(formats) {
    this.formats = formats;
  }

  // The rule behind a reason; of a set's line also what comes beside it.
  rule(reason, isSet) {
    const named = (rows) => rows.filter(([word]) => word === reason).map(([, rule]) => rule);
    const rules = named(this.formats.rules);
    if (!isSet) return rules.join("; ");
    const beside = named(this.formats.setRules);
    const alone = beside.filter((rule) => !rule.startsWith("also "));
    return (alone.length > 0 ? alone : [...rules, ...beside]).join("; ");
  }

  // The form of each line by its word; of configuration lines with what is accepted.
  forms() {
    const forms = new Map();
    for (const [cell, accepted] of [...this.formats.settings, ...this.formats.runLines]) {
      for (const form of cell.match(/`[^`]*`(?: and [a-z ]*numbers?)?/g) ?? []) {
        const words = form.replaceAll("`", "").split(/ +/);
        const word = words[0] === "C" ? words[1] : words[0];
        forms.set(word, words.join(" ") + (accepted ? `; accepted: ${accepted}` : ""));
      }
    }
    return forms;
  }

  // The form that a line should have, or the words that a line can begin with.
  form(line, isSet) {
    return isSet ? this.formInSet(line) : formIn(this.forms(), line);
  }

  formInSet(line) {
    const forms = this.forms();
    const shared = forms.get("pool").replace("pool", "shared");
    for (const word of ["pool", "entry", "window"]) forms.delete(word);
    const [number, ...rest] = wordsOfLine(line);
    if (number === "shared") return shared;
    return `a partition's number, 0 to 7, and then ${formIn(forms, rest.join(" "))}`;
  }
}

function formIn(forms, line) {
  const words = line.split(/[ \t\r]+/).filter((word) => word !== "");
  const word = /^[0-9]/.test(words[0] ?? "") ? words[1] : words[0];
  if (forms.has(word)) return forms.get(word);
  const all = [...forms.keys()];
  const ofRuns = all.filter((it) => forms.get(it).startsWith("C "));
  const others = all.filter((it) => !ofRuns.includes(it));
  return `a line begins with ${others.join(", ")}, or with a processor's number and then ${ofRuns.join(", ")}`;
}
