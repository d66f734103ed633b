/* Stands in for a file of QEMU's. */
#include "qemu/osdep.h"

int spapr_irq_post_load(SpaprMachineState *spapr, int version);
void close_htab_fd(SpaprMachineState *spapr);

void spapr_free_hpt(SpaprMachineState *spapr)
{
    qemu_vfree(spapr->htab);
}

int spapr_reallocate_hpt(SpaprMachineState *spapr, int shift)
{
    spapr->patb_entry = 0;
    return 0;
}

static int spapr_post_load(SpaprMachineState *spapr, int version)
{
    int err;
    err = spapr_irq_post_load(spapr, version);
    return err;
}

static void htab_save_end_marker(int f)
{
}

static int htab_save_iterate(int f, SpaprMachineState *spapr)
{
    if (!spapr->htab) {
        return -1;
    }
    htab_save_end_marker(f);
    return 0;
}

static int htab_save_complete(int f, SpaprMachineState *spapr)
{
    if (!spapr->htab) {
        return -1;
    }
    htab_save_end_marker(f);
    return 0;
}

static int htab_load(SpaprMachineState *spapr)
{
    uint32_t section_hdr;
    section_hdr = 0;
    return section_hdr;
}

static void htab_save_cleanup(SpaprMachineState *spapr)
{
    close_htab_fd(spapr);
}

static void spapr_instance_init(Object *obj)
{
    SpaprMachineState *spapr = (SpaprMachineState *)obj;
    spapr->htab_fd = -1;
}

int uses(Object *obj)
{
    SpaprMachineState *spapr = (SpaprMachineState *)obj;
    spapr_instance_init(obj);
    htab_save_cleanup(spapr);
    return spapr_post_load(spapr, 3) + htab_save_iterate(0, spapr) + htab_save_complete(0, spapr) + htab_load(spapr);
}
