/* What QEMU calls of papr. The machine option `papr` says what these do; docs/QEMU.md has the modes. */
#ifndef HW_PPC_PAPR_HOOKS_H
#define HW_PPC_PAPR_HOOKS_H

#include <stdbool.h>
#include <stdint.h>

struct ArchCPU;
struct Object;
struct SpaprMachineState;

typedef uint64_t papr_hcall_fn(struct ArchCPU *cpu, struct SpaprMachineState *spapr, uint64_t number,
                               uint64_t *args);

/* Adds the options to a machine. */
void papr_add_options(struct Object *machine);

/* Whether the guest's table is papr's, so that none of QEMU's is used. */
bool papr_answers(void);

/* ---- calls */

/* A hypervisor call that papr answers: `rc` is the answer, and `args` have its words. */
bool papr_answer_call(struct ArchCPU *cpu, struct SpaprMachineState *spapr, uint64_t number,
                      uint64_t *args, uint64_t *rc);

/* Makes a call by QEMU's function, and compares or records it. */
uint64_t papr_make_call(struct ArchCPU *cpu, struct SpaprMachineState *spapr, uint64_t number,
                        uint64_t *args, papr_hcall_fn *fn);

/* QEMU has carried its table into another one of 2^order bytes, with this answer. */
void papr_table_resized(struct ArchCPU *cpu, const void *htab, int order, int64_t rc);

/* ---- the table */

/* It is new and empty; it is about to be freed. */
void papr_table_made(struct SpaprMachineState *spapr);
void papr_table_freed(void);

/* Round the last pass of a migration's source, when the processors have stopped. */
void papr_table_saving(struct SpaprMachineState *spapr);
void papr_table_saved(void);

/* Round a migration's target; an error number of QEMU's where the table is refused. */
void papr_table_loading(struct SpaprMachineState *spapr);
int papr_table_loaded(struct SpaprMachineState *spapr);

/* ---- walks */

/* What a walk of papr's gave: what a TLB keeps, or the bits of DSISR or SRR1. */
struct papr_translated {
    uint64_t address;
    uint64_t error;
    int rights;                 /* PAGE_READ, PAGE_WRITE and PAGE_EXEC */
    int page_shift;
};

/* Walks by papr's table; whether the access is allowed. `slb` is the second word of the segment. */
bool papr_answer_walk(struct ArchCPU *cpu, uint64_t slb, int shift, uint64_t ea, int want, bool problem,
                      struct papr_translated *found);

/* Round QEMU's own search: what the first gives is handed to the second. */
uint64_t papr_search_begins(void);
void papr_search_ends(struct ArchCPU *cpu, uint64_t begun);

/* What a search of QEMU's came to. */
struct papr_search {
    uint64_t slb;               /* the second word of the segment */
    uint64_t ea, address;
    uint64_t ptex, dword1;      /* the entry that was found, and its second word as it was loaded */
    unsigned outcome;           /* as papr.h numbers it */
    int shift, want;
    bool problem;
};

/* Compares or records it: once for each search, when R and C are set. */
void papr_searched(struct ArchCPU *cpu, const struct papr_search *search);

#endif
