/*
 * A plan held to what docs/SCOPE.md says of its bytes, from the sheet and the plan
 * alone: every stop once, ids of vehicles, loads as running sums, the figures of
 * each round as they are walked with the rest where the plan has it, a rest at home
 * where it mends the round and nowhere else, the reason of each stop set aside, and zero
 * bytes everywhere else; a plan out of the limiter also to its plan in. Not whether
 * another plan would have been right.
 */
#ifndef PLAN_CHECK_H
#define PLAN_CHECK_H

#include "plans.h"

enum { REASONS = PLANNER_ASIDE_LIMITED + 1 };

/* An accepted sheet, its plan, the plan in where that is a plan out, and the stops and reasons met in its chains so far. */
struct reading {
    uint8_t *sheet, *plan, *plan_in;
    unsigned rows, depots, vehicles, method, stops, aside, home_rests, reasons[REASONS];
    uint8_t met[PLANNER_MOST_ROWS];
    double cost;
};

/* A round so far: record k of the plan, driven by vehicle v of the sheet; and without the rest, its time and whether it
   misses a hard window. */
struct walked {
    unsigned k, v, last, place;
    uint32_t load;
    double time, distance, lateness, lateness_cost, unrested;
    int misses;
};

static inline uint8_t *stop_record(const struct reading *r, unsigned stop)
{
    return stop_of(r->plan, r->rows, stop);
}

static inline unsigned next_of(const struct reading *r, uint8_t *plan, unsigned stop)
{
    return (unsigned)planner_get(stop_of(plan, r->rows, stop) + PLANNER_STOP_NEXT, 2);
}

static inline unsigned reason_in(const struct reading *r, uint8_t *plan, unsigned stop)
{
    return (unsigned)planner_get(stop_of(plan, r->rows, stop) + PLANNER_STOP_REASON, 2);
}

static inline int none_set(const uint8_t *at, size_t len)
{
    for (size_t i = 0; i < len; i++)
        if (at[i] != 0)
            return 0;
    return 1;
}

/* Whether the eight bytes are those of the number. */
static inline int holds(const uint8_t *at, double value)
{
    return planner_get(at, 8) == bits_of(value);
}

/* Strikes a link's stop off those not met, NULL if it was one. */
static inline const char *meet(struct reading *r, unsigned stop)
{
    if (stop < r->depots || stop >= r->rows)
        return "a link to no stop";
    if (r->met[stop])
        return "a stop twice";
    r->met[stop] = 1;
    r->stops++;
    return NULL;
}

/* When service could start if the stop had no window: at arrival, or after a rest that stands before it. */
static inline double free_to_serve(const struct reading *r, const struct walked *w, double arrival)
{
    if (w->place != planner_round_rest_place(r->plan, w->k))
        return arrival;
    return planner_round_rest_start(r->plan, w->k) + planner_vehicle_rest_duration(r->sheet, w->v);
}

/* When service starts for one that is free to serve then. */
static inline double start_at(const struct reading *r, unsigned stop, double free)
{
    double ready = planner_row_ready(r->sheet, stop);
    return planner_row_marks(r->sheet, stop) & PLANNER_WINDOW && free < ready ? free + (ready - free) : free;
}

/* Whether one that is free to serve then misses a hard window. */
static inline int misses(const struct reading *r, unsigned stop, double free)
{
    uint32_t marks = planner_row_marks(r->sheet, stop);
    return marks & PLANNER_WINDOW && !(marks & PLANNER_PENALTY) && free > planner_row_due(r->sheet, stop);
}

/* The same stop on the walk without a rest. */
static inline void serve_unrested(const struct reading *r, struct walked *w, unsigned stop)
{
    double arrival = w->unrested + planner_time(r->sheet, w->last, stop);
    w->misses |= misses(r, stop, arrival);
    w->unrested = start_at(r, stop, arrival) + planner_row_service(r->sheet, stop);
}

/* The departure from a stop, its lateness counted. */
static inline double serve(const struct reading *r, struct walked *w, unsigned stop, double arrival)
{
    uint32_t marks = planner_row_marks(r->sheet, stop);
    double free = free_to_serve(r, w, arrival), due = planner_row_due(r->sheet, stop);
    if (free > due && marks & PLANNER_WINDOW && marks & PLANNER_PENALTY) {
        w->lateness += free - due;
        w->lateness_cost += planner_row_penalty(r->sheet, stop) * (free - due);
    }
    return start_at(r, stop, free) + planner_row_service(r->sheet, stop);
}

/* One stop more; NULL if its record is right. */
static inline const char *walk_to(struct reading *r, struct walked *w, unsigned stop)
{
    const uint8_t *record = stop_record(r, stop);
    double arrival = w->time + planner_time(r->sheet, w->last, stop);
    w->place++;
    w->distance += planner_distance(r->sheet, w->last, stop);
    w->load += (uint32_t)planner_row_demand(r->sheet, stop);
    w->time = serve(r, w, stop, arrival);
    serve_unrested(r, w, stop);
    w->last = stop;
    if (reason_in(r, r->plan, stop) != 0)
        return "a reason of a stop on a round";
    if ((uint32_t)planner_stop_load(r->plan, stop) != w->load)
        return "a load that is not the sum of the demands";
    if (!holds(record + PLANNER_STOP_ARRIVAL, arrival) || !holds(record + PLANNER_STOP_DEPARTURE, w->time))
        return "an arrival or a departure";
    return NULL;
}

static inline const char *rest_fault(const struct reading *r, const struct walked *w)
{
    unsigned place = planner_round_rest_place(r->plan, w->k);
    double start = planner_round_rest_start(r->plan, w->k);
    uint32_t marks = planner_vehicle_marks(r->sheet, w->v);
    if (place == 0)
        return none_set(round_record(r->plan, w->k) + PLANNER_ROUND_REST_START, 8) ? NULL : "a start without a rest";
    if (!(marks & PLANNER_REST) || place > w->place + (marks & PLANNER_REST_AT_HOME ? 1u : 0u))
        return "a rest's place";
    if (!(start >= planner_vehicle_earliest(r->sheet, w->v)) || !(start <= planner_vehicle_latest(r->sheet, w->v)))
        return "a rest's start";
    return NULL;
}

/* Whether a round of vehicle v keeps its maxima and its depot's due. */
static inline int keeps_limits(const struct reading *r, unsigned v, double distance, double duration)
{
    uint32_t marks = planner_vehicle_marks(r->sheet, v);
    unsigned depot = planner_vehicle_depot(r->sheet, v);
    int closes = r->rows > 0 && planner_row_marks(r->sheet, depot) & PLANNER_WINDOW;
    return !(marks & PLANNER_MAX_DISTANCE && distance > planner_vehicle_max_distance(r->sheet, v))
           && !(marks & PLANNER_MAX_DURATION && duration > planner_vehicle_max_duration(r->sheet, v))
           && !(closes && duration > planner_row_due(r->sheet, depot));
}

static inline int is_whole(double time)
{
    return time < 1e15 && time == (double)(int64_t)time;
}

/* The return with the rest before the stop at a place. Negative where that is after latest or misses a hard window; and
   where a time is no whole number, since rounding may decide which place is taken then. */
static inline double return_with_rest(const struct reading *r, const struct walked *w, unsigned place)
{
    unsigned depot = planner_vehicle_depot(r->sheet, w->v), last = depot, at = 0;
    double time = 0.0, earliest = planner_vehicle_earliest(r->sheet, w->v);
    for (unsigned stop = planner_round_first(r->plan, w->k); stop != 0; stop = next_of(r, r->plan, stop)) {
        double arrival = time + planner_time(r->sheet, last, stop), start = arrival < earliest ? earliest : arrival;
        double free = ++at == place ? start + planner_vehicle_rest_duration(r->sheet, w->v) : arrival;
        if ((at == place && start > planner_vehicle_latest(r->sheet, w->v)) || misses(r, stop, free))
            return -1.0;
        time = start_at(r, stop, free) + planner_row_service(r->sheet, stop);
        if (!is_whole(arrival) || !is_whole(free) || !is_whole(start_at(r, stop, free)) || !is_whole(time))
            return -1.0;
        last = stop;
    }
    return time + planner_time(r->sheet, last, depot);
}

/* Whether a round that rests at home passes without it: back by earliest, or with the rest before a stop. */
static inline int needs_no_home(const struct reading *r, const struct walked *w, double distance, double unrested)
{
    for (unsigned place = 1; place <= w->place; place++) {
        double returned = return_with_rest(r, w, place);
        if (returned >= 0.0 && keeps_limits(r, w->v, distance, returned))
            return 1;
    }
    return unrested <= planner_vehicle_earliest(r->sheet, w->v);
}

/* A rest at home stands where the walk without a rest, back at `unrested`, allows it and the round does not pass
   otherwise; and a round that could have one and has none keeps its limits, and rests before a stop or needs no rest.
   `returned` is its return with the plan's rest. */
static inline const char *home_rest_fault(const struct reading *r, const struct walked *w, double distance, double returned,
                                          double unrested)
{
    unsigned place = planner_round_rest_place(r->plan, w->k);
    double earliest = planner_vehicle_earliest(r->sheet, w->v), start = unrested < earliest ? earliest : unrested;
    int fits = planner_vehicle_marks(r->sheet, w->v) & PLANNER_REST_AT_HOME && !w->misses
               && start <= planner_vehicle_latest(r->sheet, w->v)
               && keeps_limits(r, w->v, distance, start + planner_vehicle_rest_duration(r->sheet, w->v));
    if (place == w->place + 1 && (!fits || !holds(round_record(r->plan, w->k) + PLANNER_ROUND_REST_START, start)))
        return "a rest at home";
    if (place == w->place + 1)
        return needs_no_home(r, w, distance, unrested) ? "a rest at home of a round that passes without it" : NULL;
    if (fits && !(keeps_limits(r, w->v, distance, returned) && (place > 0 || returned <= earliest)))
        return "no rest at home";
    return NULL;
}

/* Whether the plan in has round k of the plan as it is. */
static inline int was_so(const struct reading *r, unsigned k)
{
    for (unsigned before = 0; before < planner_plan_rounds(r->plan_in); before++) {
        unsigned stop = planner_round_first(r->plan, k), had = planner_round_first(r->plan_in, before);
        for (; stop == had && stop != 0; stop = next_of(r, r->plan, stop))
            had = next_of(r, r->plan_in, stop);
        if (planner_round_id(r->plan, k) == planner_round_id(r->plan_in, before) && stop == had)
            return 1;
    }
    return 0;
}

static inline int may_be_over(const struct reading *r, const struct walked *w)
{
    if (r->plan_in != NULL)
        return was_so(r, w->k);
    return r->method == PLANNER_SAVINGS && w->place == 1;
}

/* The end of a round, back at its depot. */
static inline const char *home_fault(struct reading *r, struct walked *w, unsigned depot)
{
    const uint8_t *round = round_record(r->plan, w->k);
    double distance = w->distance + planner_distance(r->sheet, w->last, depot), way = planner_time(r->sheet, w->last, depot);
    int at_home = planner_round_rest_place(r->plan, w->k) == w->place + 1;
    double ended = planner_round_rest_start(r->plan, w->k) + planner_vehicle_rest_duration(r->sheet, w->v);
    if (!none_set(round + PLANNER_ROUND_SPARE, 4))
        return "a round's unused bytes";
    if ((uint32_t)planner_round_load(r->plan, w->k) != w->load)
        return "a round's load";
    if (!holds(round + PLANNER_ROUND_DISTANCE, distance))
        return "a round's distance";
    if (!holds(round + PLANNER_ROUND_DURATION, at_home ? ended : w->time + way))
        return "a round's duration";
    if (!holds(round + PLANNER_ROUND_LATENESS, w->lateness) || !holds(round + PLANNER_ROUND_LATENESS_COST, w->lateness_cost))
        return "a round's lateness";
    if (w->load > (uint32_t)planner_vehicle_capacity(r->sheet, w->v) && !may_be_over(r, w))
        return "a load above capacity";
    r->cost += planner_vehicle_fixed_cost(r->sheet, w->v)
               + planner_vehicle_cost_per_distance(r->sheet, w->v) * (distance + w->lateness_cost);
    r->home_rests += (unsigned)at_home;
    const char *fault = rest_fault(r, w);
    return fault != NULL ? fault : home_rest_fault(r, w, distance, w->time + way, w->unrested + way);
}

/* The number of vehicles if none has the id. */
static inline unsigned vehicle_by_id(const struct reading *r, uint32_t id)
{
    unsigned v = 0;
    while (v < r->vehicles && planner_vehicle_id(r->sheet, v) != id)
        v++;
    return v;
}

/* A nearest neighbour's vehicle drives once; the other methods' is the first of its depot; a plan in's is any. */
static inline int may_drive(const struct reading *r, unsigned k, unsigned v)
{
    if (r->plan_in != NULL)
        return 1;
    if (needs_vehicle(r->method)) {
        unsigned first = 0;
        while (planner_vehicle_depot(r->sheet, first) != planner_vehicle_depot(r->sheet, v))
            first++;
        return first == v;
    }
    for (unsigned earlier = 0; earlier < k; earlier++)
        if (planner_round_id(r->plan, earlier) == planner_vehicle_id(r->sheet, v))
            return 0;
    return 1;
}

static inline const char *round_fault(struct reading *r, unsigned k)
{
    struct walked w = {0};
    w.k = k;
    w.v = vehicle_by_id(r, planner_round_id(r->plan, k));
    if (w.v == r->vehicles || !may_drive(r, k, w.v))
        return "a round's vehicle";
    unsigned depot = planner_vehicle_depot(r->sheet, w.v), stop = planner_round_first(r->plan, k);
    w.last = depot;
    if (stop == 0 && (r->plan_in == NULL || !was_so(r, k)))
        return "an empty round";
    for (; stop != 0; stop = next_of(r, r->plan, stop)) {
        const char *fault = meet(r, stop);
        if (fault == NULL)
            fault = walk_to(r, &w, stop);
        if (fault != NULL)
            return fault;
    }
    return home_fault(r, &w, depot);
}

/* ---- why a stop is set aside */

/* When the lone round of vehicle v is back that is free to serve the stop then. */
static inline double back_from(const struct reading *r, unsigned v, unsigned stop, double free)
{
    unsigned depot = planner_vehicle_depot(r->sheet, v);
    return start_at(r, stop, free) + planner_row_service(r->sheet, stop) + planner_time(r->sheet, stop, depot);
}

/* The ends of a lone round that misses no hard window without a rest: one where no rest is due, else one for each place that
   the rest has, before the stop or at home. */
static inline unsigned lone_ends(const struct reading *r, unsigned v, unsigned stop, double ends[2])
{
    uint32_t marks = planner_vehicle_marks(r->sheet, v);
    double arrival = planner_time(r->sheet, planner_vehicle_depot(r->sheet, v), stop);
    double returned = back_from(r, v, stop, arrival);
    double earliest = planner_vehicle_earliest(r->sheet, v), latest = planner_vehicle_latest(r->sheet, v);
    double rest = planner_vehicle_rest_duration(r->sheet, v), start = arrival < earliest ? earliest : arrival;
    unsigned count = 0;
    if (!(marks & PLANNER_REST) || returned <= earliest) {
        ends[0] = returned;
        return 1;
    }
    if (start <= latest && !misses(r, stop, start + rest))
        ends[count++] = back_from(r, v, stop, start + rest);
    if (marks & PLANNER_REST_AT_HOME && returned <= latest)
        ends[count++] = returned + rest;
    return count;
}

static inline double lone_distance(const struct reading *r, unsigned v, unsigned stop)
{
    unsigned depot = planner_vehicle_depot(r->sheet, v);
    return planner_distance(r->sheet, depot, stop) + planner_distance(r->sheet, stop, depot);
}

static inline int is_over_distance(const struct reading *r, unsigned v, unsigned stop)
{
    return planner_vehicle_marks(r->sheet, v) & PLANNER_MAX_DISTANCE
           && lone_distance(r, v, stop) > planner_vehicle_max_distance(r->sheet, v);
}

/* What plain nearest neighbour asks of a vehicle without a rest beside the capacity: no window, no waiting, no due of the
   depot. PLANNER_ASIDE_FLEET where the lone round keeps it. */
static inline unsigned plain_reason(const struct reading *r, unsigned v, unsigned stop)
{
    unsigned depot = planner_vehicle_depot(r->sheet, v);
    double duration = planner_time(r->sheet, depot, stop) + planner_row_service(r->sheet, stop)
                      + planner_time(r->sheet, stop, depot);
    int is_over = planner_vehicle_marks(r->sheet, v) & PLANNER_MAX_DURATION
                  && duration > planner_vehicle_max_duration(r->sheet, v);
    return is_over_distance(r, v, stop) ? PLANNER_ASIDE_DISTANCE : is_over ? PLANNER_ASIDE_DURATION : PLANNER_ASIDE_FLEET;
}

/* The first rule that turns the lone round of vehicle v down, PLANNER_ASIDE_FLEET where none does. */
static inline unsigned lone_reason(const struct reading *r, unsigned v, unsigned stop)
{
    double ends[2];
    int has_rest = (planner_vehicle_marks(r->sheet, v) & PLANNER_REST) != 0;
    if (r->method != PLANNER_SAVINGS && planner_row_demand(r->sheet, stop) > planner_vehicle_capacity(r->sheet, v))
        return PLANNER_ASIDE_CAPACITY;
    if (r->method == PLANNER_NEAREST_NEIGHBOR && !has_rest)
        return plain_reason(r, v, stop);
    if (misses(r, stop, planner_time(r->sheet, planner_vehicle_depot(r->sheet, v), stop)))
        return PLANNER_ASIDE_WINDOW;
    unsigned count = lone_ends(r, v, stop, ends);
    if (count == 0)
        return PLANNER_ASIDE_REST;
    if (is_over_distance(r, v, stop))
        return PLANNER_ASIDE_DISTANCE;
    while (count > 0)
        if (keeps_limits(r, v, 0.0, ends[--count]))
            return PLANNER_ASIDE_FLEET;
    return PLANNER_ASIDE_DURATION;
}

/* The first vehicle of the depot that the stop is tried at last: the farthest, of equals the higher. There is a vehicle. */
static inline unsigned tried_last(const struct reading *r, unsigned stop)
{
    unsigned last = 0;
    for (unsigned v = 1; v < r->vehicles; v++) {
        unsigned depot = planner_vehicle_depot(r->sheet, v), last_depot = planner_vehicle_depot(r->sheet, last);
        double far = planner_distance(r->sheet, depot, stop), farthest = planner_distance(r->sheet, last_depot, stop);
        if (far > farthest || (far == farthest && depot > last_depot))
            last = v;
    }
    return last;
}

static inline unsigned reason_of(const struct reading *r, unsigned stop)
{
    if (r->vehicles == 0)
        return PLANNER_ASIDE_NO_VEHICLE;
    unsigned first = tried_last(r, stop);
    for (unsigned v = first + 1; v < r->vehicles && !needs_vehicle(r->method); v++)
        if (planner_vehicle_depot(r->sheet, v) == planner_vehicle_depot(r->sheet, first)
            && lone_reason(r, v, stop) == PLANNER_ASIDE_FLEET)
            return PLANNER_ASIDE_FLEET;
    return lone_reason(r, first, stop);
}

static inline int is_aside(const struct reading *r, uint8_t *plan, unsigned sought)
{
    unsigned stop = planner_plan_aside(plan);
    while (stop != 0 && stop != sought)
        stop = next_of(r, plan, stop);
    return stop != 0;
}

/* The limiter copies what the plan in has, and drops the others. */
static inline unsigned limited_reason(const struct reading *r, unsigned stop)
{
    return is_aside(r, r->plan_in, stop) ? reason_in(r, r->plan_in, stop) : PLANNER_ASIDE_LIMITED;
}

static inline const char *reason_fault(struct reading *r, unsigned stop)
{
    unsigned reason = reason_in(r, r->plan, stop);
    if (reason != (r->plan_in != NULL ? limited_reason(r, stop) : reason_of(r, stop)))
        return "a reason";
    if (r->plan_in == NULL && reason == PLANNER_ASIDE_FLEET && needs_vehicle(r->method))
        return "a stop set aside that could make a round alone";
    r->reasons[reason]++;
    return NULL;
}

/* Plain nearest neighbour sets aside ascending, and so do every method with several depots and the limiter. */
static inline const char *aside_fault(struct reading *r)
{
    int ascending = r->plan_in != NULL || r->depots > 1 || r->method == PLANNER_NEAREST_NEIGHBOR;
    unsigned last = 0, stop = planner_plan_aside(r->plan);
    for (; stop != 0; stop = next_of(r, r->plan, stop)) {
        const char *fault = meet(r, stop);
        if (fault == NULL)
            fault = reason_fault(r, stop);
        if (fault != NULL)
            return fault;
        if (!none_set(stop_record(r, stop) + PLANNER_STOP_LOAD, PLANNER_PLAN_STOP_BYTES - PLANNER_STOP_LOAD))
            return "figures of a stop set aside";
        if (ascending && stop < last)
            return "the order of the stops set aside";
        last = stop;
        r->aside++;
    }
    return NULL;
}

/* A reading of a sheet that begins. */
static inline void begin(struct reading *r, uint8_t *sheet, uint8_t *plan, uint8_t *plan_in)
{
    memset(r, 0, sizeof *r);
    r->sheet = sheet;
    r->plan = plan;
    r->plan_in = plan_in;
    r->rows = planner_rows(sheet);
    r->vehicles = planner_vehicles(sheet);
    r->method = planner_sheet_method(sheet);
    r->depots = planner_depots(sheet);
}

static inline const char *whole_fault(struct reading *r)
{
    uint8_t *plan = r->plan;
    unsigned rounds = planner_plan_rounds(plan);
    const char *fault = NULL;
    if (rounds > r->rows || planner_plan_rows(plan) != r->rows || !none_set(plan + PLANNER_PLAN_SPARE, 2))
        return "the header";
    for (unsigned k = 0; k < rounds && fault == NULL; k++)
        fault = round_fault(r, k);
    if (fault == NULL)
        fault = aside_fault(r);
    if (fault != NULL)
        return fault;
    if (r->rows > r->depots && r->stops != r->rows - r->depots)
        return "a stop in no chain";
    if (!none_set(round_record(plan, rounds), PLANNER_PLAN_ROUND_BYTES * (r->rows - rounds)))
        return "a record after the last round";
    for (unsigned depot = 0; depot < r->depots && depot < r->rows; depot++)
        if (!none_set(stop_record(r, depot), PLANNER_PLAN_STOP_BYTES))
            return "a depot's record";
    return planner_plan_cost(plan) == r->cost ? NULL : "the cost";
}

/* What is wrong with the plan of an accepted sheet, NULL if nothing is; `r` tells of it then. */
static inline const char *plan_fault(struct reading *r, uint8_t *sheet, uint8_t *plan)
{
    begin(r, sheet, plan, NULL);
    return whole_fault(r);
}

/* Whether a chain leads to stops only, none of them met before. */
static inline int chain_is_good(struct reading *r, unsigned stop)
{
    for (; stop != 0; stop = next_of(r, r->plan, stop))
        if (meet(r, stop) != NULL)
            return 0;
    return 1;
}

/* Whether every stop stands once in the chains of a plan in of an accepted sheet, and every round has a vehicle. */
static inline int chains_are_good(struct reading *r, uint8_t *sheet, uint8_t *plan_in)
{
    begin(r, sheet, plan_in, NULL);
    unsigned rounds = planner_plan_rounds(plan_in);
    if (rounds > r->rows)
        return 0;
    for (unsigned k = 0; k < rounds; k++)
        if (vehicle_by_id(r, planner_round_id(plan_in, k)) == r->vehicles
            || !chain_is_good(r, planner_round_first(plan_in, k)))
            return 0;
    return chain_is_good(r, planner_plan_aside(plan_in)) && (r->rows == 0 || r->stops == r->rows - r->depots);
}

/* Whether the stops that it sets aside have reasons, of a plan in whose chains are good. */
static inline int reasons_are_good(const struct reading *r)
{
    for (unsigned stop = planner_plan_aside(r->plan); stop != 0; stop = next_of(r, r->plan, stop))
        if (reason_in(r, r->plan, stop) >= REASONS)
            return 0;
    return 1;
}

/* Whether the limiter, if there is one depot, and the biller can take it. */
static inline int plan_in_is_good(struct reading *r, uint8_t *sheet, uint8_t *plan_in)
{
    return chains_are_good(r, sheet, plan_in) && reasons_are_good(r);
}

/* The same of a plan out and its plan in, which can be taken. */
static inline const char *limit_fault(struct reading *r, uint8_t *sheet, uint8_t *plan_in, uint32_t greatest, uint8_t *plan_out)
{
    begin(r, sheet, plan_out, plan_in);
    unsigned rounds = planner_plan_rounds(plan_out), before = planner_plan_rounds(plan_in);
    const char *fault = whole_fault(r);
    if (fault != NULL)
        return fault;
    if (rounds != (before < greatest ? before : greatest))
        return "the number of rounds";
    if (rounds == 0 && !holds(plan_out + PLANNER_PLAN_COST, -0.0))
        return "the cost of no round";
    for (unsigned stop = 1; stop < r->rows; stop++)
        if (is_aside(r, plan_in, stop) && !is_aside(r, plan_out, stop))
            return "a stop that was set aside";
    return NULL;
}

#endif
