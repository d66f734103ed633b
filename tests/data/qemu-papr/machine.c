/* Stands in for a file of QEMU's. */
#include "qemu/osdep.h"

enum { SPR_DECR = 22 };

typedef struct { target_ulong spr[1024], hflags_compat_nmsr; } CPUPPCState;

bool tcg_enabled(void);
void pmu_mmcr01_updated(CPUPPCState *env);
target_ulong cpu_ppc_load_decr(CPUPPCState *env);
void cpu_ppc_store_decr(CPUPPCState *env, target_ulong value);

static int cpu_pre_save(void *opaque)
{
    CPUPPCState *env = opaque;

    env->hflags_compat_nmsr = 0;

    return 0;
}

static int cpu_post_load(void *opaque, int version_id)
{
    CPUPPCState *env = opaque;

    if (tcg_enabled()) {
        pmu_mmcr01_updated(env);
    }

    return 0;
}

const struct { int (*save)(void *), (*load)(void *, int); } processor = {cpu_pre_save, cpu_post_load};
