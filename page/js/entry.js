// An entry's two doublewords in words. The library decodes them; the words are the page's own.

import { EMPTY, NO_INDEX, PAGE, REASONS } from "./decoder.js";

const SIZES = new Map([[12, "4 KB"], [16, "64 KB"], [24, "16 MB"], [34, "16 GB"]]);
const UNPLACED = 23; // a base page as large as 2^23 bytes is known without the entry's index
const B_OF_NEW = 3n << 58n;

// B of the newer layout put where the older one, which the library reads, has it.
function inOldLayout(dword0, dword1, layout) {
  if (layout !== "new") return [dword0, dword1];
  return [dword0 | ((dword1 & B_OF_NEW) << 4n), dword1 & ~B_OF_NEW];
}

// What the library says of the doublewords; `index` is their place in a table, or null where it isn't known.
export function entryOf(decoder, first, second, layout = "old", index = null) {
  const entry = decoder.decode(...inOldLayout(first, second, layout), index);
  return { ...entry, allowed: [false, true].map((key) => decoder.rights(entry.protection, key)) };
}

const yes = (is) => (is ? "yes" : "no");
const hex = (value) => `0x${value.toString(16)}`;
const allowedOf = ({ reads, writes }) => [reads && "read", writes && "write"].filter(Boolean).join(" and ") || "nothing";
const lettersOf = (wimg) => ["W", "I", "M", "G"].filter((_, at) => wimg & (8 >> at)).join(" ") || "none";

function sizeOf({ baseShift, actualShift }) {
  const inside = baseShift === actualShift ? "" : ` inside ${SIZES.get(actualShift)}`;
  return SIZES.get(baseShift) + inside;
}

function offsetOf({ isPlaced, baseShift, page }) {
  if (!isPlaced && baseShift < UNPLACED) return "known with the entry's index";
  return hex(page << BigInt(baseShift));
}

// The rows of an entry that translates a page, and dashes for another.
function pageRowsOf(entry) {
  const isPage = entry.why === PAGE;
  return [
    ["segment (B)", !isPage ? "–" : entry.isOneTb ? "1 TB" : "256 MB"],
    ["VSID", isPage ? hex(entry.vsid) : "–"],
    ["offset in the segment", isPage ? offsetOf(entry) : "–"],
    ["page", isPage ? sizeOf(entry) : `none: ${REASONS[entry.why]}`],
    ["logical address", entry.actualShift === 0 ? "–" : hex(entry.real)],
  ];
}

// The fields as rows of a name and words.
export function rowsOf(entry) {
  const none = `none: ${REASONS[entry.why]}`;
  if (entry.why === EMPTY) return [["valid (V)", "no"], ["page", none]];
  if (entry.why === NO_INDEX) return [["page", none]];
  const [first, second] = entry.allowed.map(allowedOf);
  return [
    ["valid (V)", "yes"],
    ...pageRowsOf(entry),
    ["protection (PP)", `${entry.protection}: key 0 ${first}, key 1 ${second}`],
    ["fetches refused (N, G)", yes(entry.isNoExecute)],
    ["key of AMR and IAMR", String(entry.key)],
    ["W, I, M, G", lettersOf(entry.wimg)],
    ["referenced (R)", yes(entry.isReferenced)],
    ["changed (C)", yes(entry.isChanged)],
    ["bolted", yes(entry.isBolted)],
    ["group (H)", entry.isSecondary ? "secondary" : "primary"],
  ];
}
