/*
 * A deal held to what docs/SCOPE.md says of it: every round has a crew that there is; and
 * where the durations of the rounds are at hand, each went, in its turn, to the crew with
 * the least total, and the totals keep both bounds.
 */
#ifndef DEAL_CHECK_H
#define DEAL_CHECK_H

#include "asking.h"

/* What is wrong with the deal of a plan that was accepted, NULL if nothing is. */
static inline const char *deal_fault(const struct asking *a, const uint8_t *deal)
{
    for (unsigned k = 0; k < planner_plan_rounds(a->plan); k++)
        if (planner_deal_crew(deal, k) < 1 || planner_deal_crew(deal, k) > a->crews)
            return "a round of a crew that there is not";
    return NULL;
}

/* What crews have of a deal so far, from crew 1 on; and how often a round met others as long, or its crew others that had as
   much, and some, so that the lower one counted. */
struct crew_totals {
    uint64_t total[PLANNER_MOST_CREWS + 1], shortest[PLANNER_MOST_CREWS + 1], sum, longest;
    unsigned tied_rounds, tied_crews;
};

/* Whether round k may be dealt before the other: it is longer, or as long and lower. */
static inline int is_before(const uint64_t *whole, unsigned k, unsigned other)
{
    return whole[k] > whole[other] || (whole[k] == whole[other] && k < other);
}

/* Deals a round of so much time to the crew that has it by the deal; whether that is the crew with the least total. */
static inline int takes_turn(struct crew_totals *t, unsigned crews, unsigned crew, uint64_t whole)
{
    for (unsigned other = 1; other <= crews; other++) {
        if (t->total[other] < t->total[crew] || (t->total[other] == t->total[crew] && other < crew))
            return 0;
        t->tied_crews += other != crew && t->total[other] == t->total[crew] && t->total[crew] > 0;
    }
    t->total[crew] += whole;
    t->shortest[crew] = whole; /* rounds come no longer than those before them */
    t->sum += whole;
    return 1;
}

/* No total is above another by more than its shortest round, nor the largest above its share and the longest round. */
static inline int keeps_bounds(const struct crew_totals *t, unsigned crews)
{
    for (unsigned one = 1; one <= crews; one++) {
        if (t->total[one] * crews > t->sum + t->longest * (crews - 1))
            return 0;
        for (unsigned other = 1; other <= crews; other++)
            if (t->total[one] > t->total[other] + t->shortest[one])
                return 0;
    }
    return 1;
}

/* What is wrong by the durations of `walked`, which has the rounds of the plan; `t` is filled. */
static inline const char *crew_fault(const struct asking *a, const uint8_t *walked, const uint8_t *deal, struct crew_totals *t)
{
    unsigned rounds = planner_plan_rounds(a->plan), next[PLANNER_MOST_ROWS + 1];
    uint64_t whole[PLANNER_MOST_ROWS];
    memset(t, 0, sizeof *t);
    for (unsigned k = 0; k < rounds; k++)
        whole[k] = begun_units(planner_round_duration(walked, k), 1);
    /* Each round's turn is the number of those before it. */
    for (unsigned k = 0; k < rounds; k++) {
        unsigned turn = 0;
        for (unsigned other = 0; other < rounds; other++) {
            turn += is_before(whole, other, k);
            t->tied_rounds += other < k && whole[other] == whole[k];
        }
        next[turn] = k;
        t->longest = whole[k] > t->longest ? whole[k] : t->longest;
    }
    for (unsigned turn = 0; turn < rounds; turn++)
        if (!takes_turn(t, a->crews, planner_deal_crew(deal, next[turn]), whole[next[turn]]))
            return "a round that is not the crew's with the least total in its turn";
    return keeps_bounds(t, a->crews) ? NULL : "totals that do not keep their bounds";
}

#endif
