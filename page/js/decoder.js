// The proved library's decoding of entries: `papr_decode` and `papr_rights` of include/papr.h, which the page's module has.

const PAGE_BYTES = 40; // of struct papr_page
const [LEAST_ORDER, GREATEST_ORDER] = [18, 34];
const GROUP = 8n;
export const REASONS = [
  "",
  "V is clear",
  "no page size is encoded",
  "B is above 1, or no page of that size lies where the tag says",
  "the page's group isn't the one of this index",
  "no table has this index",
];
export const PAGE = 0;
export const EMPTY = 1;
export const NO_INDEX = 5;
const OTHER_GROUP = 4;

const entriesOf = (order) => 1n << BigInt(order - 4);

export class Decoder {
  static async of(bytes) {
    const { instance } = await WebAssembly.instantiate(bytes, {});
    return new Decoder(instance.exports);
  }

  constructor({ memory, page_room: take, papr_decode, papr_rights }) {
    this.place = take(BigInt(PAGE_BYTES));
    if (!this.place) throw new Error("there is no memory for an entry");
    Object.assign(this, { memory, papr_decode, papr_rights });
  }

  // What the doublewords say at an index, or, where it is null, in the first group of the smallest table that has a page
  // for them; `isPlaced` says which. A table decodes an index as each larger one does, which has more groups behind it.
  decode(dword0, dword1, index) {
    if (index !== null) return { ...this.at(orderOf(index), index, dword0, dword1), isPlaced: true };
    const groups = entriesOf(LEAST_ORDER) / GROUP;
    let found = this.at(LEAST_ORDER, 0n, dword0, dword1);
    for (let group = 1n; found.why === OTHER_GROUP && group < groups; group += 1n)
      found = this.at(LEAST_ORDER, group * GROUP, dword0, dword1);
    return { ...found, isPlaced: false };
  }

  // One call of papr_decode.
  at(order, index, dword0, dword1) {
    this.papr_decode(this.place, order, index, dword0, dword1);
    const view = new DataView(this.memory.buffer, Number(this.place), PAGE_BYTES);
    const wide = (at) => view.getBigUint64(at, true);
    const [baseShift, actualShift, key, protection, wimg, ...flags] = new Uint8Array(
      this.memory.buffer, Number(this.place) + 24, 11);
    const [isOneTb, isNoExecute, isBolted, isSecondary, isReferenced, isChanged] = flags.map((flag) => flag !== 0);
    return {
      vsid: wide(0), page: wide(8), real: wide(16), baseShift, actualShift, key, protection, wimg, isOneTb,
      isNoExecute, isBolted, isSecondary, isReferenced, isChanged, why: view.getUint32(36, true),
    };
  }

  // What protection bits allow with a key: whether reads, and whether writes.
  rights(protection, key) {
    const bits = this.papr_rights(protection, key);
    return { reads: (bits & 4) !== 0, writes: (bits & 2) !== 0 };
  }
}

// The order of the smallest table with this index, or of the largest table.
function orderOf(index) {
  let order = LEAST_ORDER;
  while (order < GREATEST_ORDER && index >= entriesOf(order)) order += 1;
  return order;
}
