/* SPDX-License-Identifier: MIT */
/* How tests in C count their checks. Their last line is 'N passed, M failed'. */
#ifndef EXPECT_H
#define EXPECT_H

#include <stdbool.h>
#include <stdio.h>

/* How many failures are named. */
enum { MOST_TOLD = 20 };

static unsigned passed, failed;

static inline void expect(bool holds, const char *what, int line)
{
    passed += holds;
    failed += !holds;
    if (!holds && failed <= MOST_TOLD)
        printf("FAIL line %d: %s\n", line, what);
}

#define EXPECT(holds) expect((holds), #holds, __LINE__)
/* What cases need to go on, which is no check of its own. */
#define NEED(holds) ((holds) ? (void)0 : expect(false, #holds, __LINE__))

/* Ends a program of tests: prints the last line, and returns the status. */
static inline int told_status(void)
{
    printf("%u passed, %u failed\n", passed, failed);
    return failed != 0;
}

#endif
