/*
 * One engine's calls: -DENGINE names the table. With -DBY_HAND they are the calls by hand, as one compiler
 * made them; run.sh then makes one object of all of them that shows nothing but the table, so that two
 * compilers' stand beside the library in one program.
 */
#include "bench.h"

#ifdef BY_HAND
#include "bare.h"
#include "join_reference.h"
#include "lean.h"
#include "reference.h"
#include "schedules.h"
#include "serve.h"
#include "sheet.h"
#include "shelf_reference.h"
#include "touch_reference.h"

/* Two that have no other name: of files, or an object, compiled with -DAS_LIBRARY. */
#define reference_run zc_run
#define reference_audit_words zc_audit_words

static zc_reply bare(zc_control *control, zc_record *records, size_t record_count, size_t task,
                     TABLES(uint64_t, uint32_t, uint64_t), NEXT(uint64_t))
{
    (void)record_count, (void)left_count, (void)right_count, (void)label_count;
    (void)mark_count, (void)next_count;
    return bare_step(control, &records[task], lefts, rights, labels, marks, next);
}
#define OWN(name) .zc_##name = reference_##name,
const struct calls ENGINE = {EACH_CALL(OWN).lean = lean_step, .bare = bare};

#else
#define OWN(name) .zc_##name = zc_##name,
const struct calls ENGINE = {EACH_CALL(OWN).lean = zc_step, .bare = zc_step};
#endif
