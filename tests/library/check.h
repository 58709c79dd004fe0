/* What a test program counts. The last line that it prints is told()'s. */
#ifndef CHECK_H
#define CHECK_H

#include <inttypes.h>
#include <stdio.h>

static unsigned passed, failed;

static inline void is(const char *what, uint64_t found, uint64_t expected)
{
    if (found == expected) {
        passed++;
        return;
    }
    failed++;
    printf("FAILED %s: %" PRIu64 " (0x%" PRIx64 "), expected %" PRIu64 " (0x%" PRIx64 ")\n", what,
           found, found, expected, expected);
}

static inline int told(void)
{
    printf("%u passed, %u failed\n", passed, failed);
    return failed != 0;
}
#endif
