/* Functions that return a set have all its rows in a store of tuples, which goes to a file where it grows beyond work_mem. */
#include "extension.h"

#include "funcapi.h"
#include "miscadmin.h"
#include "utils/memutils.h"

MemoryContext begin_rows(const call *it) {
    InitMaterializedSRF(it->fcinfo, MAT_SRF_USE_EXPECTED_DESC);
    return MemoryContextSwitchTo(AllocSetContextCreate(CurrentMemoryContext, "kormaglen row", ALLOCSET_DEFAULT_SIZES));
}

void add_row(const call *it, Datum *values, bool *nulls) {
    ReturnSetInfo *to = (ReturnSetInfo *)it->fcinfo->resultinfo;
    CHECK_FOR_INTERRUPTS();
    tuplestore_putvalues(to->setResult, to->setDesc, values, nulls);
    MemoryContextReset(CurrentMemoryContext);
}

void end_rows(MemoryContext before) {
    MemoryContextDelete(MemoryContextSwitchTo(before));
}
