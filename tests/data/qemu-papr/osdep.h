/* Stands in for QEMU's first header: names that the other stand-ins use. */
#include <stdbool.h>
#include <stdint.h>
#include <string.h>

enum { MMU_DATA_LOAD, MMU_DATA_STORE, MMU_INST_FETCH };

typedef uint64_t target_ulong;
typedef struct Object Object;
typedef struct ArchCPU PowerPCCPU;
typedef struct SpaprMachineState { int patb_entry, htab_shift, htab_fd; void *htab; } SpaprMachineState;
typedef struct { uint64_t pte0, pte1; } Words;
typedef struct { uint64_t vsid; struct { int page_shift; } *sps; } Segment;

void qemu_vfree(void *memory);
bool mmuidx_pr(int index);
