"""A stand-in for libpapr.so.0: base pages of 4 KB, and of 64 KB with L set, in segments of both sizes."""

from pathlib import Path

from .support import TOP, run

SOURCE = r"""
#include <papr.h>

uint32_t papr_version(void) { return PAPR_VERSION; }

uint8_t papr_rights(uint8_t protection, bool key) {
    static const uint8_t rights[2][8] = {{6, 6, 6, 4, 0, 0, 4, 0}, {0, 4, 6, 4, 0, 0, 0, 0}};
    return rights[key][protection];
}

struct papr_page papr_decode(uint8_t order, uint64_t ptex, uint64_t dword0, uint64_t dword1) {
    struct papr_page it = {0};
    uint64_t tag = dword0 >> 7 & (1ull << 55) - 1, mask = (1ull << (order - 7)) - 1;
    if (order < 18 || order > 22 || ptex >> (order - 4))
        return (struct papr_page){.why = 5};
    if (!(dword0 & 1))
        return (struct papr_page){.why = 1};
    it.key = dword1 >> 60 & 3 ? 8 * (dword1 >> 60 & 3) + (dword1 >> 9 & 7) : dword1 >> 9 & 7;
    it.protection = (dword1 >> 63) * 4 + (dword1 & 3);
    it.wimg = dword1 >> 3 & 15;
    it.no_execute = dword1 >> 2 & 1;
    it.bolted = dword0 >> 4 & 1;
    it.secondary = dword0 >> 1 & 1;
    it.referenced = dword1 >> 8 & 1;
    it.changed = dword1 >> 7 & 1;
    it.base_shift = it.actual_shift = dword0 & 4 ? 16 : 12;
    it.real = (dword1 & 0x0ffffffffffff000) >> it.base_shift << it.base_shift;
    it.one_tb = dword0 >> 62;
    if (dword0 >> 62 > 1) {
        it.why = 3;
        return it;
    }
    uint64_t low = 23 - it.base_shift, hash = (it.secondary ? ~(ptex >> 3) : ptex >> 3) & mask;
    it.vsid = tag >> (it.one_tb ? 17 : 5);
    it.page = (tag & (it.one_tb ? (1 << 17) - 1 : 31)) << low;
    uint64_t folded = it.one_tb ? it.vsid ^ it.vsid << 25 : it.vsid;
    it.page |= (hash ^ folded ^ it.page) & ((1ull << low) - 1);
    if (((folded ^ it.page) & mask) != hash) {
        it.why = 4;
        it.vsid = it.page = 0;
    }
    return it;
}
"""


def make_decoder(folder: Path) -> Path:
    """Compiles the stand-in."""
    library = folder / "libpapr.so.0"
    ran = run("cc", "-shared", "-fPIC", f"-I{TOP / 'include'}", "-o", library, "-x", "c", "-", given=SOURCE)
    if ran.status:
        raise OSError(ran.err)
    return library
