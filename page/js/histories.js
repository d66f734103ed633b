// The receipts of all page tables by their entries, each entry's in the order of its history. It is made once for a
// text, beside the page's own thread, and then the receipts of any entry are at hand.

import { isChange, isOfTable } from "./replies.js";

// `order` has the places of the receipts, entry by entry and partition by partition; `from` is where each entry begins,
// and `span` how many entries a partition has there.
export function historiesOf(replies) {
  const span = spanOf(replies);
  const place = (at) => replies.part[replies.reply[at]] * span + replies.entry[at];
  const from = new Uint32Array((replies.parts.at(-1) ?? 0) * span + span + 1);
  eachOfTable(replies, (at) => {
    from[place(at) + 1] += 1;
  });
  for (let at = 1; at < from.length; at += 1) from[at] += from[at - 1];
  const order = new Uint32Array(from[from.length - 1]);
  const next = from.slice();
  eachOfTable(replies, (at) => {
    order[next[place(at)]] = at;
    next[place(at)] += 1;
  });
  for (let at = 1; at < from.length; at += 1) sort(replies, order.subarray(from[at - 1], from[at]));
  return { order, from, span };
}

// The places of one entry's receipts.
export function historyOf({ order, from, span }, part, entry) {
  const at = part * span + entry;
  return entry < span && at + 1 < from.length ? order.subarray(from[at], from[at + 1]) : order.subarray(0, 0);
}

// Those of the places whose receipts changed the entry. An entry may have a million, for which `filter` is slow.
export function changesOf(replies, places) {
  const found = new Uint32Array(places.length);
  let count = 0;
  for (let at = 0; at < places.length; at += 1) {
    if (isChange(replies, places[at])) {
      found[count] = places[at];
      count += 1;
    }
  }
  return found.subarray(0, count);
}

// How many receipts each entry of a partition has.
export function countsOf({ from, span }, part) {
  const begin = part * span;
  const counts = new Uint32Array(span);
  for (let entry = 0; entry < span; entry += 1) counts[entry] = from[begin + entry + 1] - from[begin + entry];
  return counts;
}

function eachOfTable(replies, hear) {
  for (let at = 0; at < replies.entry.length; at += 1) if (isOfTable(replies, at)) hear(at);
}

// One more than the highest entry that has a receipt.
function spanOf(replies) {
  let highest = 0;
  eachOfTable(replies, (at) => {
    highest = Math.max(highest, replies.entry[at]);
  });
  return highest + 1;
}

// By table, stamp, bits set, changes last. The text of a serial run has them so.
function sort(replies, places) {
  const { table, reply, stamp, bits } = replies;
  const count = (at) => (bits[at] >> 1) + (bits[at] & 1);
  const compare = (a, b) =>
    table[reply[a]] - table[reply[b]] || stamp[a] - stamp[b] || count(a) - count(b) ||
    isChange(replies, a) - isChange(replies, b);
  let isSorted = true;
  for (let at = 1; isSorted && at < places.length; at += 1) isSorted = compare(places[at - 1], places[at]) <= 0;
  if (!isSorted) places.sort(compare);
}
