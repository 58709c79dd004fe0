/* The hand-written audit of audit_reference.c, with the arguments of zc_audit. */
#ifndef AUDIT_REFERENCE_H
#define AUDIT_REFERENCE_H

#include "zeppolecape.h"

zc_verdict reference_audit(const zc_finished *calls, size_t call_count, const uint64_t *order,
                           size_t order_count);

#endif
