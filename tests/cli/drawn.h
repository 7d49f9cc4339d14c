/*
 * Sheets for the tests of guchfenor's own readings: drawn and mutated as tests/c/fuzz.c
 * does, by tests/c/mutate.h, but with no corpus.
 */
#ifndef DRAWN_H
#define DRAWN_H

#include <stdio.h>
#include <stdlib.h>

#include "../c/mutate_plan.h"

static void end(const char *what)
{
    printf("FAILED: %s\n", what);
    exit(1);
}

/* With `beyond`, one that may leave the ranges, and mostly does. */
static inline void draw_next(struct sheet *s, int beyond)
{
    bold = 0;
    s->len = draw_sheet(s->bytes, draw_shape(), &state);
    bold = beyond;
    while (!one_in(3))
        mutate(s);
    if (!beyond && laid_out(s))
        mend(s);
    s->plan_len = s->len < PLANNER_HEADER_BYTES ? 0 : PLANNER_PLAN_BYTES(planner_rows(s->bytes));
    if (beyond && one_in(12))
        s->plan_len += 1 + draw(3);
}

static inline unsigned long count_of(int count, char **words)
{
    unsigned long sheets = count > 1 ? strtoul(words[1], NULL, 10) : 5000;
    state = (2 * (count > 2 ? strtoul(words[2], NULL, 10) : 1) + 1) * UINT64_C(0x9e3779b97f4a7c15);
    return sheets;
}

#endif
