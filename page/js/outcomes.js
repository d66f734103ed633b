// What the page says of the program's answer: the words of its status, and what stands below.

import { NOT_GOOD, REFUSED, STATUSES } from "./program.js";
import { refusalIn } from "./refusals.js";

const NO_PLACE =
  "The newer layout can't hold this entry: doubleword 0 has a bit of 0x3FF0000000000000, or doubleword 1 one " +
  "of 0x0C00000000000000.";

// The refused line's rule, and the form that it should have.
function saidOfRefusal(refusals, trace, said, isSet) {
  const { line, reason, entry } = refusalIn(said) ?? {};
  if (line === undefined) return { kind: "bad", words: `2: refused, entry ${entry}`, told: [NO_PLACE] };
  const told = [`rule: ${refusals.rule(reason, isSet)}`];
  if (line >= 1 && line <= trace.count) told.push(`form: ${refusals.form(trace.text(line - 1), isSet)}`);
  return { kind: "bad", words: `2: line ${line} is refused: ${reason}`, told };
}

// An answer as a kind, the words of the status, and sentences.
export function saidOf(command, { status, said }, refusals, trace) {
  if (status === REFUSED) return saidOfRefusal(refusals, trace, said, command === "set");
  if (command === "check" && [0, NOT_GOOD].includes(status)) {
    const words = `${status}: ${said.trim()}`;
    if (status === NOT_GOOD) return { kind: "bad", words, told: [] };
    return { kind: "good", words, told: ["The text is that of a good run of this trace."] };
  }
  const words = `${status}: ${STATUSES[status]}`;
  return status === 0 ? { kind: "good", words, told: [] } : { kind: "bad", words, told: [said] };
}

// Where a text isn't good: in the lines of a section, or behind all.
export function saidOfSection(said, section) {
  const number = /[0-9]+/.exec(said)?.[0];
  return section
    ? `Up to the end of section ${number}, lines ${section[0]} to ${section[1]}, no good run writes this text.`
    : "All sections are good, but the text doesn't end after the last one.";
}
