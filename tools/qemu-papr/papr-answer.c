/*
 * The mode answer: the guest's page table is papr's. The calls on entries, the two resize calls and each
 * walk are the library's, and QEMU drops cached translations where the library says that they are stale.
 * Nothing here looks into an entry. QEMU's own memory of the table can't be read or written, except while a
 * migration takes it.
 *
 * A resize, and a new part of a recording, run while no processor does. A reset and a migration find the
 * processors stopped.
 */
#include "qemu/osdep.h"
#include "qemu/error-report.h"
#include "qemu/main-loop.h"
#include "qemu/memalign.h"
#include "qemu/timer.h"
#include "exec/exec-all.h"
#include "cpu.h"
#include "mmu-hash64.h"
#include "hw/mem/memory-device.h"
#include "hw/ppc/spapr.h"
#include "papr-record.h"
#include "papr-table.h"
#include <sys/mman.h>

/* What was counted, by actor, each on a line of the host's cache. */
static struct {
    uint64_t calls, refused, drops;
    uint64_t outcomes[6];
} QEMU_ALIGNED(64) counts[PAPR_MOST_ACTORS];
static uint64_t tables, resizes, refused_resizes, saves, loads;

/* What H_RESIZE_HPT_PREPARE has begun, and the memory that is lent for it. */
static struct papr_resize resize;
static struct papr_entry *pending;

/* QEMU's memory of the table. */
static void *hidden;
static size_t hidden_size;

unsigned papr_actors(SpaprMachineState *spapr)
{
    return MACHINE(spapr)->smp.max_cpus + 1;
}

/* ---- QEMU's memory of the table */

static void protect(int protection)
{
    if (hidden && mprotect(hidden, hidden_size, protection) != 0) {
        error_report("papr: mprotect: %s", strerror(errno));
        exit(1);
    }
}

static void hide(SpaprMachineState *spapr)
{
    hidden = spapr->htab;
    hidden_size = HTAB_SIZE(spapr);
    protect(PROT_NONE);
}

static void show(void)
{
    protect(PROT_READ | PROT_WRITE);
}

/* Memory for a table of another order takes the place of what is there. */
static void replace_memory(SpaprMachineState *spapr, int order)
{
    size_t size = (size_t)1 << order;
    show();
    qemu_vfree(spapr->htab);
    spapr->htab = qemu_memalign(size, size);
    memset(spapr->htab, 0, size);
    spapr->htab_shift = order;
    hide(spapr);
}

/* ---- the table */

void papr_grant_memory(SpaprMachineState *spapr)
{
    const uint64_t end = 1ULL << 57, machine = 1ULL << 58;
    DeviceMemoryState *plugged = MACHINE(spapr)->device_memory;
    uint64_t ram = MACHINE(spapr)->ram_size, size = plugged ? memory_region_size(&plugged->mr) : 0;
    struct papr_grant given[4] = {{0, machine, ram, false}};
    size_t count = 1;
    if (size) {
        if (plugged->base > ram)
            given[count++] = (struct papr_grant){ram, machine + ram, plugged->base - ram, true};
        given[count++] = (struct papr_grant){plugged->base, machine + plugged->base, size, false};
        ram = plugged->base + size;
    }
    given[count++] = (struct papr_grant){ram, machine + ram, end - ram, true};
    papr_table_grant(given, count);
}

uint8_t papr_limit(SpaprMachineState *spapr)
{
    return spapr_hpt_shift_for_ramsize(MACHINE(spapr)->ram_size + get_plugged_memory_size()) + 1;
}

/* Begins a part of the recording with the table as it is, or with nothing if no trace has such a table. */
static void begin_part(SpaprMachineState *spapr)
{
    if (!papr_options.record)
        return;
    if (spapr->htab_shift > PAPR_HIGHEST_IN_TRACE) {
        papr_record_pause(papr_actors(spapr), spapr->htab_shift);
        return;
    }
    struct papr_rest rest = papr_table_take();
    papr_record_part(&rest, papr_table_grants(), papr_actors(spapr), papr_limit(spapr));
    papr_table_give(&rest);
}

void papr_answer_made(SpaprMachineState *spapr)
{
    uint8_t order = spapr->htab_shift;
    if (order < PAPR_LOWEST_ORDER || order > PAPR_HIGHEST_ORDER) {
        error_report("papr: order %d is not from %d to %d", order, PAPR_LOWEST_ORDER, PAPR_HIGHEST_ORDER);
        exit(1);
    }
    hide(spapr);
    papr_grant_memory(spapr);
    papr_table_put(g_new0(struct papr_entry, (size_t)1 << (order - 4)), order, papr_actors(spapr));
    tables++;
    begin_part(spapr);
}

void papr_answer_freed(void)
{
    show();
    hidden = NULL;
    papr_table_put(NULL, 0, 0);
    g_free(pending);
    pending = NULL;
    resize = (struct papr_resize){0};
}

/* ---- migration */

void papr_answer_loading(SpaprMachineState *spapr)
{
    show();
}

int papr_answer_loaded(SpaprMachineState *spapr)
{
    if (!spapr->htab)
        return 0;
    struct papr_rest rest = papr_table_take();
    struct papr_transfer read = papr_import(rest.entries, rest.count, rest.order, papr_table_grants(),
                                            PAPR_LAYOUT_OLD, 0, rest.count, spapr->htab, hidden_size);
    papr_table_give(&rest);
    hide(spapr);
    loads++;
    if (read.refusal != PAPR_TRANSFERRED) {
        error_report("papr: entry 0x%zx of the migration is refused: %" PRIu32, read.index, read.refusal);
        return -EINVAL;
    }
    begin_part(spapr);
    return 0;
}

void papr_answer_saving(SpaprMachineState *spapr)
{
    struct papr_rest rest = papr_table_take();
    show();
    struct papr_transfer written = papr_export(rest.entries, rest.count, rest.order, PAPR_LAYOUT_OLD, 0,
                                               rest.count, spapr->htab, hidden_size);
    papr_table_give(&rest);
    g_assert(written.refusal == PAPR_TRANSFERRED);
    saves++;
}

void papr_answer_saved(void)
{
    protect(PROT_NONE);
}

/* ---- calls on entries */

/* The processors drop what they have cached: before this one goes on, or soon. */
static void drop_translations(CPUState *cs)
{
    counts[cs->cpu_index].drops++;
    if (papr_options.late_writes)
        tlb_flush_all_cpus(cs);
    else
        tlb_flush_all_cpus_synced(cs);
}

/* The global lock keeps a reset and a migration away. */
static void part_at_rest(CPUState *cs, run_on_cpu_data data)
{
    qemu_mutex_lock_iothread();
    /* (A pending table isn't carried from part to part.) */
    if (resize.pending || !papr_table_is_there())
        papr_record_later();
    else
        begin_part(SPAPR_MACHINE(qdev_get_machine()));
    qemu_mutex_unlock_iothread();
}

/* Begins another part of the recording soon, if one is due. */
static void record_on(CPUState *cs, bool is_due)
{
    if (is_due)
        async_safe_run_on_cpu(cs, part_at_rest, RUN_ON_CPU_NULL);
}

static uint64_t answer(CPUState *cs, uint64_t number, uint64_t *args)
{
    struct papr_receipt made[PAPR_MOST_RECEIPTS];
    unsigned actor = cs->cpu_index;
    uint64_t asked[8];
    memcpy(asked, args, sizeof asked);
    /* QEMU's global lock would keep other processors' calls away. */
    if (!papr_options.is_locked)
        qemu_mutex_unlock_iothread();
    struct papr_reply reply = papr_table_call(actor, number, args, made);
    if (papr_options.record)
        record_on(cs, papr_record_call(actor, number, asked, &reply, args, made));
    if (!papr_options.is_locked)
        qemu_mutex_lock_iothread();
    counts[actor].calls++;
    counts[actor].refused += reply.rc != PAPR_H_SUCCESS;
    if (reply.stale)
        drop_translations(cs);
    return reply.rc;
}

/* ---- resize calls */

struct resize_call {
    uint64_t number, flags, shift;
    uint64_t table;             /* how many tables there had been */
};

static int64_t prepare(SpaprMachineState *spapr, uint64_t flags, uint64_t shift)
{
    uint8_t limit = papr_limit(spapr);
    bool is_pending = resize.pending && resize.order == shift;
    bool is_new = !is_pending && shift >= PAPR_LOWEST_ORDER && shift <= MIN(limit, PAPR_HIGHEST_ORDER);
    size_t count = is_new || is_pending ? (size_t)1 << (shift - 4) : 0;
    struct papr_entry *lent = is_new ? g_try_new0(struct papr_entry, count) : is_pending ? pending : NULL;
    int64_t rc = papr_resize_prepare(&resize, limit, flags, shift, lent, lent ? count : 0);
    if (is_new) {
        bool is_taken = rc == PAPR_H_SUCCESS || rc == PAPR_H_LONG_BUSY;
        g_free(is_taken ? pending : lent);
        pending = is_taken ? lent : pending;
    }
    if (!resize.pending) {
        g_free(pending);
        pending = NULL;
    }
    return rc;
}

static int64_t commit(CPUState *cs, SpaprMachineState *spapr, uint64_t flags, uint64_t shift)
{
    struct papr_rest rest = papr_table_take();
    size_t count = resize.pending ? (size_t)1 << (resize.order - 4) : 0;
    struct papr_rehash done = papr_resize_commit(&resize, rest.entries, rest.count, rest.order, pending, count,
                                                 flags, shift);
    if (done.rc == PAPR_H_SUCCESS) {
        g_free(rest.entries);
        rest = (struct papr_rest){pending, (size_t)1 << (shift - 4), shift};
        pending = NULL;
        replace_memory(spapr, shift);
    } else if (!resize.pending) {
        g_free(pending);
        pending = NULL;
    }
    papr_table_give(&rest);
    if (done.stale)
        drop_translations(cs);
    return done.rc;
}

/* What no trace has isn't recorded: an answer that it wouldn't give, and all with a larger table until it is
 * gone. A part that is recorded begins when nothing is pending. */
static void record_resize(CPUState *cs, SpaprMachineState *spapr, const struct resize_call *call, int64_t rc)
{
    uint8_t order = MAX(spapr->htab_shift, resize.pending ? resize.order : 0);
    bool is_larger = order > PAPR_HIGHEST_IN_TRACE;
    if (is_larger || !papr_record_has(call->number, call->shift, rc))
        papr_record_pause(papr_actors(spapr), is_larger ? order : call->shift);
    papr_record_quiet(cs->cpu_index, call->number, call->flags, call->shift, rc);
    if (papr_record_is_paused() && !is_larger && !resize.pending)
        begin_part(spapr);
}

static void make_resize(CPUState *cs, const struct resize_call *call)
{
    SpaprMachineState *spapr = SPAPR_MACHINE(qdev_get_machine());
    int64_t rc = call->number == H_RESIZE_HPT_PREPARE ? prepare(spapr, call->flags, call->shift)
                                                      : commit(cs, spapr, call->flags, call->shift);
    resizes++;
    refused_resizes += rc != PAPR_H_SUCCESS && rc != PAPR_H_LONG_BUSY;
    if (papr_options.record)
        record_resize(cs, spapr, call, rc);
    POWERPC_CPU(cs)->env.gpr[3] = rc;
}

/* Answers a resize call while no processor runs, unless the machine was reset meanwhile. */
static void resize_at_rest(CPUState *cs, run_on_cpu_data data)
{
    g_autofree struct resize_call *call = data.host_ptr;
    qemu_mutex_lock_iothread();
    if (call->table == tables)
        make_resize(cs, call);
    qemu_mutex_unlock_iothread();
}

/* The processor leaves its loop at once, and has the answer when it comes back. If the machine is saved
 * before, the guest calls again. */
static uint64_t resize_later(CPUState *cs, uint64_t number, const uint64_t *args)
{
    struct resize_call *call = g_new(struct resize_call, 1);
    *call = (struct resize_call){number, args[0], args[1], tables};
    async_safe_run_on_cpu(cs, resize_at_rest, RUN_ON_CPU_HOST_PTR(call));
    return H_LONG_BUSY_ORDER_1_MSEC;
}

bool papr_answer_call(PowerPCCPU *cpu, SpaprMachineState *spapr, uint64_t number, uint64_t *args, uint64_t *rc)
{
    if (papr_options.mode != PAPR_ANSWER)
        return false;
    switch (number) {
    case H_RESIZE_HPT_PREPARE:
    case H_RESIZE_HPT_COMMIT:
        if (spapr->resize_hpt == SPAPR_RESIZE_HPT_DISABLED || !papr_table_is_there())
            return false;
        *rc = resize_later(CPU(cpu), number, args);
        return true;
    case H_ENTER:
    case H_REMOVE:
    case H_PROTECT:
    case H_READ:
    case H_CLEAR_REF:
    case H_CLEAR_MOD:
    case H_BULK_REMOVE:
        *rc = papr_table_is_there() ? answer(CPU(cpu), number, args) : H_NOT_AVAILABLE;
        return true;
    default:
        return false;
    }
}

/* ---- walks */

static int rights_of(uint8_t rights)
{
    return (rights & PAPR_MAY_READ ? PAGE_READ : 0) | (rights & PAPR_MAY_WRITE ? PAGE_WRITE : 0) |
           (rights & PAPR_MAY_EXECUTE ? PAGE_EXEC : 0);
}

/* SRR1 of a fetch: of two causes that share a bit's place the first counts. */
static uint64_t fetch_error(const struct papr_walk *walk)
{
    if (walk->outcome == PAPR_WALK_NO_PAGE)
        return SRR1_NOPTE;
    uint64_t error = walk->causes & PAPR_CAUSE_IAMR ? SRR1_IAMR : 0;
    if (walk->causes & PAPR_CAUSE_NO_EXECUTE)
        return error | SRR1_NOEXEC_GUARD;
    return error | (walk->causes & PAPR_CAUSE_PROTECTION ? SRR1_PROTFAULT : 0);
}

/* DSISR of a load or store. */
static uint64_t data_error(const struct papr_walk *walk, int want)
{
    uint64_t error = want == MMU_DATA_STORE ? DSISR_ISSTORE : 0;
    if (walk->outcome == PAPR_WALK_NO_PAGE)
        return error | DSISR_NOPTE;
    error |= walk->causes & PAPR_CAUSE_PROTECTION ? DSISR_PROTFAULT : 0;
    return error | (walk->causes & PAPR_CAUSE_AMR ? DSISR_AMR : 0);
}

void papr_put_masks(PowerPCCPU *cpu, struct papr_access *access)
{
    CPUPPCState *env = &cpu->env;
    if (!ppc_hash64_has(cpu, PPC_HASH64_AMR))
        return;
    access->amr = env->spr[SPR_AMR];
    if (env->mmu_model == POWERPC_MMU_2_07 || env->mmu_model == POWERPC_MMU_3_00)
        access->iamr = env->spr[SPR_IAMR];
}

/* The processor itself, or the last actor, for the monitor and for a debugger. */
static unsigned actor_of(PowerPCCPU *cpu)
{
    bool is_own = current_cpu == CPU(cpu);
    return is_own ? CPU(cpu)->cpu_index : papr_actors(SPAPR_MACHINE(qdev_get_machine())) - 1;
}

bool papr_answer_walk(PowerPCCPU *cpu, uint64_t slb, int shift, uint64_t ea, int want, bool problem,
                      struct papr_translated *found)
{
    struct papr_receipt made[PAPR_MOST_RECEIPTS];
    struct papr_access access = papr_access_of(slb, shift, ea, want, problem);
    struct papr_walk walk = {.outcome = PAPR_WALK_NO_PAGE};
    unsigned actor = actor_of(cpu);
    papr_put_masks(cpu, &access);
    if (papr_table_is_there()) {
        uint64_t begun = papr_search_begins();
        walk = papr_table_walk(actor, &access, made);
        papr_search_ends(cpu, begun);
        if (papr_options.record) {
            bool is_due = papr_record_walk(actor, slb, problem ? PAPR_IN_PROBLEM_STATE : 0, &access, &walk, made);
            record_on(CPU(cpu), is_due);
        }
    }
    counts[actor].outcomes[walk.outcome < 6 ? walk.outcome : PAPR_WALK_PARAMETER]++;
    found->address = walk.logical;
    found->rights = rights_of(walk.rights);
    found->page_shift = walk.actual_shift;
    found->error = want == MMU_INST_FETCH ? fetch_error(&walk) : data_error(&walk, want);
    return walk.outcome == PAPR_WALK_AT;
}

/* ---- totals */

char *papr_answer_totals(void)
{
    uint64_t calls = 0, refused = 0, drops = 0, walks = 0, outcomes[6] = {0};
    for (int i = 0; i < PAPR_MOST_ACTORS; i++) {
        calls += counts[i].calls;
        refused += counts[i].refused;
        drops += counts[i].drops;
        for (int o = 0; o < 6; o++) {
            outcomes[o] += counts[i].outcomes[o];
            walks += counts[i].outcomes[o];
        }
    }
    return g_strdup_printf("%s; %" PRIu64 " calls, %" PRIu64 " refused, %" PRIu64 " that dropped translations; %"
                           PRIu64 " walks (at %" PRIu64 ", denied %" PRIu64 ", no page %" PRIu64 ", amr %" PRIu64
                           ", iamr %" PRIu64 ", parameter %" PRIu64 "); %" PRIu64 " steps tried again; %" PRIu64
                           " tables, %" PRIu64 " resize calls, %" PRIu64 " refused, %" PRIu64 " saves, %" PRIu64
                           " loads", papr_options.is_locked ? "one lock" : "a pass for each processor", calls,
                           refused, drops, walks, outcomes[0], outcomes[1], outcomes[2], outcomes[4], outcomes[5],
                           outcomes[3], papr_table_tries(), tables, resizes, refused_resizes, saves, loads);
}
