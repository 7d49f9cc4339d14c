/*
 * Calls that ask something of a plan as it stands: a bill, or a deal of its rounds to
 * crews.
 */
#ifndef ASKING_H
#define ASKING_H

#include <stdint.h>

#include "planner_fields.h"

enum answer_kind { BILL, DEAL, ANSWER_KINDS };

/* One call. Of what is asked, rates and least charge are a bill's, crews a deal's. */
struct asking {
    enum answer_kind kind;
    const uint8_t *sheet, *plan;
    size_t len, plan_len, out_len;
    uint32_t distance_rate, duration_rate, least, crews;
};

/* The call itself, on what is lent for it. */
static inline uint32_t ask_of(const struct asking *a, const uint8_t *sheet, const uint8_t *plan, uint8_t *out)
{
    if (a->kind == DEAL)
        return deal_rounds(sheet, a->len, plan, a->plan_len, a->crews, out, a->out_len);
    return bill_rounds(sheet, a->len, plan, a->plan_len, a->distance_rate, a->duration_rate, a->least, out, a->out_len);
}

/* How long the answer for so many rounds is. */
static inline size_t out_bytes(enum answer_kind kind, unsigned rounds)
{
    return kind == DEAL ? PLANNER_DEAL_BYTES(rounds) : PLANNER_BILL_BYTES(rounds);
}

/* The refusal of what is asked, which is told last; and whether it holds. */
static inline uint32_t own_refusal(enum answer_kind kind)
{
    return kind == DEAL ? PLANNER_BAD_CREWS : PLANNER_BAD_RATE;
}

static inline int is_out_of_range(const struct asking *a)
{
    if (a->kind == DEAL)
        return a->crews < 1 || a->crews > PLANNER_MOST_CREWS;
    return a->distance_rate > PLANNER_MOST_RATE || a->duration_rate > PLANNER_MOST_RATE || a->least > PLANNER_MOST_RATE;
}

/* In whole numbers. A figure is below 2^53: its whole part is exact, and anything behind the point begins one more. */
static inline uint64_t begun_units(double figure, unsigned unit)
{
    uint64_t whole = (uint64_t)figure;
    return (whole + ((double)whole < figure) + unit - 1) / unit;
}

#endif
