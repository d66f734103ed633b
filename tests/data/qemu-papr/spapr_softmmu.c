/* Stands in for a file of QEMU's. */
#include "qemu/osdep.h"

int rehash_hpt(PowerPCCPU *cpu, void *old, int oldsize, void *new, int newsize);

target_ulong softmmu_resize_hpt_commit(PowerPCCPU *cpu, SpaprMachineState *spapr, void *waiting)
{
    struct { int shift; void *hpt; } *pending = waiting;
    int rc;
    rc = rehash_hpt(cpu, spapr->htab, spapr->htab_shift,
                    pending->hpt, pending->shift);
    if (rc == 0) {
        spapr->htab_shift = pending->shift;
    }
    return rc;
}
