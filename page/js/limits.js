// The bounds of what the page takes.

export const MOST_ENTRIES = 2 ** 18; // of the largest table that a trace may have, of order 22
export const MOST_INPUT = 2 ** 24; // bytes that the program doesn't refuse
export const MOST_UNPACKED = 2 ** 27; // bytes that are taken of a file
export const TOO_MUCH = "the file holds more than papr takes";
