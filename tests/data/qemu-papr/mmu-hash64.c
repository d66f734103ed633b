/* Stands in for a file of QEMU's. */
#include "qemu/osdep.h"

int64_t ppc_hash64_htab_lookup(PowerPCCPU *cpu, Segment *slb, uint64_t eaddr, Words *pte);
uint64_t deposit64(uint64_t a, int b, int c, uint64_t d);
void ppc_hash64_set_isi(int cs, int mmu_idx, uint64_t slb_vsid, uint64_t error_code);
void ppc_hash64_set_dsi(int cs, int mmu_idx, uint64_t slb_vsid, uint64_t dar, uint64_t dsisr);

bool ppc_hash64_xlate(PowerPCCPU *cpu, uint64_t eaddr, int access_type, uint64_t *raddrp, int *psizep,
                      int *protp, int mmu_idx, bool guest_visible)
{
    int cs = 0, need_prot = access_type, prot = 0;
    Segment *slb = (Segment *)cpu;
    Words pte;
    int64_t ptex;
    ptex = ppc_hash64_htab_lookup(cpu, slb, eaddr, &pte);
    if (ptex == -1) {
        return false;
    }
    if (need_prot & ~prot) {
        return false;
    }
    *raddrp = deposit64(0, 0, 12, eaddr);
    return cs == 0;
}
