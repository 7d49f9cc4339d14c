/*
 * Plans that are dealt at random. A plan in may have any bytes, so its records of stops are
 * found by the sheet's number of rows, and not by the plan's own.
 */
#ifndef PLANS_H
#define PLANS_H

#include "sheets.h"

static inline uint8_t *round_record(uint8_t *plan, unsigned k)
{
    return plan + planner_round_at(k);
}

/* Of a plan of so many rows. */
static inline uint8_t *stop_of(uint8_t *plan, unsigned rows, unsigned stop)
{
    return round_record(plan, rows) + PLANNER_PLAN_STOP_BYTES * stop;
}

/* Any stops in any order in so many rounds of any vehicles, and some set aside, for any reason; or one in each round, as far
   as there are rounds. A sheet without a vehicle has no rounds. Only what is read of a plan in is written. */
static inline void deal_plan(uint8_t *plan, uint8_t *sheet, unsigned rounds, int lone, uint64_t *state)
{
    unsigned rows = planner_rows(sheet), depots = planner_depots(sheet), vehicles = planner_vehicles(sheet);
    unsigned stops[PLANNER_MOST_ROWS] = {0};
    uint8_t *ends[PLANNER_MOST_ROWS + 1];
    rounds = vehicles > 0 ? rounds : 0;
    planner_set_plan_rounds(plan, rounds);
    for (unsigned k = 0; k < rounds; k++) {
        planner_set_round_id(plan, k, planner_vehicle_id(sheet, below(state, vehicles)));
        ends[k] = round_record(plan, k) + PLANNER_ROUND_FIRST;
    }
    ends[rounds] = plan + PLANNER_PLAN_ASIDE;
    for (unsigned i = depots; i < rows; i++) {
        unsigned at = depots + below(state, i - depots + 1);
        stops[i] = stops[at];
        stops[at] = i;
    }
    for (unsigned i = depots; i < rows; i++) {
        uint8_t **end = &ends[!lone ? below(state, rounds + 1) : i - depots < rounds ? i - depots : rounds];
        uint8_t *record = stop_of(plan, rows, stops[i]);
        planner_put(*end, 2, stops[i]);
        if (end == &ends[rounds])
            planner_put(record + PLANNER_STOP_REASON, 2, below(state, PLANNER_ASIDE_LIMITED + 1));
        *end = record + PLANNER_STOP_NEXT;
    }
    for (unsigned k = 0; k <= rounds; k++)
        planner_put(ends[k], 2, 0);
}

#endif
