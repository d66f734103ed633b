/* Stands in for a file of QEMU's. */
#include "qemu/osdep.h"

typedef target_ulong (*spapr_hcall_fn)(PowerPCCPU *cpu, SpaprMachineState *spapr, target_ulong opcode,
                                       target_ulong *args);
spapr_hcall_fn stand_in(target_ulong opcode);
SpaprMachineState *stand_in_machine(void);

target_ulong spapr_hypercall(PowerPCCPU *cpu, target_ulong opcode, target_ulong *args);
target_ulong spapr_hypercall(PowerPCCPU *cpu, target_ulong opcode, target_ulong *args)
{
    SpaprMachineState *spapr = stand_in_machine();

    spapr_hcall_fn fn = stand_in(opcode);
    if (fn) {
            return fn(cpu, spapr, opcode, args);
    }
    fn = stand_in(opcode + 1);
    if (fn) {
            return fn(cpu, spapr, opcode, args);
    }
    return 0;
}
