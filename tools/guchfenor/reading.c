#include "reading.h"

#include <string.h>

#include "faults.h"
#include "numbers.h"

/* Beyond any figure of a plan of an accepted sheet: cost per distance 10^6, penalty 10^6, times below 10^12. */
static const double MOST_FIGURE = 1e30;

static int take_sheet(struct reading *r)
{
    struct faults faults;
    find_faults(&faults, r->sheet.bytes, r->sheet.len, plan_bytes_of(r->sheet.bytes, r->sheet.len));
    if (faults.count > 0) {
        tell("%s: refused %u: byte %lu: %s: %s", r->sheet.name, refusal_of(&faults), (unsigned long)faults.list[0].at,
             faults.list[0].where, faults.list[0].what);
        return WRONG;
    }
    r->rows = planner_rows(r->sheet.bytes);
    r->depots = planner_depots(r->sheet.bytes);
    r->vehicles = planner_vehicles(r->sheet.bytes);
    r->method = planner_sheet_method(r->sheet.bytes);
    return DONE;
}

unsigned depots_there(const struct reading *r)
{
    return r->depots < r->rows ? r->depots : r->rows;
}

/* Chains, counts and reasons, before any is followed. */
static int plan_fits(const struct reading *r)
{
    struct faults faults;
    if (r->plan.len != PLANNER_PLAN_BYTES(r->rows)) {
        tell("%s: no plan of %s: it has %lu bytes, and a plan of %u rows has %lu", r->plan.name, r->sheet.name,
             (unsigned long)r->plan.len, r->rows, (unsigned long)PLANNER_PLAN_BYTES(r->rows));
        return 0;
    }
    if (planner_plan_rows(r->plan.bytes) != r->rows) {
        tell("%s: no plan of %s: its header, byte %d, says %u rows, and the sheet has %u", r->plan.name, r->sheet.name,
             PLANNER_PLAN_ROWS, planner_plan_rows(r->plan.bytes), r->rows);
        return 0;
    }
    find_plan_faults(&faults, r->sheet.bytes, r->plan.bytes);
    if (faults.count > 0)
        tell("%s: no plan of %s: byte %lu: %s: %s", r->plan.name, r->sheet.name, (unsigned long)faults.list[0].at,
             faults.list[0].where, faults.list[0].what);
    return faults.count == 0;
}

/* Every f64 of the plan is a number that can be printed and drawn. */
static int figures_are_numbers(const struct reading *r, size_t record, size_t from, size_t past)
{
    for (size_t at = record + from; at < record + past; at += 8) {
        double value = planner_get_f64(r->plan.bytes + at);
        if (!(value >= -MOST_FIGURE && value <= MOST_FIGURE)) {
            tell("%s: byte %lu: a figure that is no number, or out of any plan's reach", r->plan.name, (unsigned long)at);
            return 0;
        }
    }
    return 1;
}

static int all_figures_are_numbers(const struct reading *r)
{
    int good = figures_are_numbers(r, 0, PLANNER_PLAN_COST, PLANNER_PLAN_HEADER_BYTES);
    for (unsigned k = 0; k < r->rows && good; k++)
        good = figures_are_numbers(r, planner_round_at(k), PLANNER_ROUND_DISTANCE, PLANNER_PLAN_ROUND_BYTES)
               && figures_are_numbers(r, planner_stop_at(r->plan.bytes, k), PLANNER_STOP_ARRIVAL, PLANNER_PLAN_STOP_BYTES);
    return good;
}

/* ---- figures that the sheet gives too */

static void compare(struct reading *r, unsigned round, const char *what, unsigned stop, double plan, double sheet)
{
    if (plan == sheet)
        return;
    if (r->strange++ > 0)
        return;
    if (stop > 0)
        tell("%s: round %u, stop %u: %s is %s, and %s gives %s", r->plan.name, round + 1, stop, what, exact(plan),
             r->sheet.name, exact(sheet));
    else
        tell("%s: round %u: %s is %s, and %s gives %s", r->plan.name, round + 1, what, exact(plan), r->sheet.name,
             exact(sheet));
}

static void take_visit(struct reading *r, unsigned k, unsigned stop)
{
    const uint8_t *sheet = r->sheet.bytes, *plan = r->plan.bytes;
    struct round *round = &r->round[k];
    struct visit *visit = &r->visit[r->visits];
    uint32_t marks = planner_row_marks(sheet, stop);
    visit->stop = stop;
    visit->place = ++round->stops;
    visit->rested = visit->place == round->rest_place;
    visit->has_window = (marks & PLANNER_WINDOW) != 0;
    visit->is_soft = visit->has_window && (marks & PLANNER_PENALTY);
    visit->ready = planner_row_ready(sheet, stop);
    visit->due = planner_row_due(sheet, stop);
    visit->arrival = planner_stop_arrival(plan, stop);
    visit->departure = planner_stop_departure(plan, stop);
    visit->load = planner_stop_load(plan, stop);
    visit->free = visit->rested ? round->rest_end : visit->arrival;
    visit->start = visit->has_window && visit->free < visit->ready ? visit->free + (visit->ready - visit->free) : visit->free;
    visit->waiting = visit->start - visit->free + (visit->rested ? round->rest_start - visit->arrival : 0.0);
    visit->late = visit->has_window && visit->free > visit->due ? visit->free - visit->due : 0.0;
    r->round_of[stop] = k + 1;
    r->visit_of[stop] = r->visits++;
}

/* Back at the depot, one step from the plan's last departure. */
static double return_of(const struct reading *r, const struct round *round)
{
    if (round->stops == 0)
        return planner_time(r->sheet.bytes, round->depot, round->depot);
    const struct visit *last = &r->visit[round->first + round->stops - 1];
    return last->departure + planner_time(r->sheet.bytes, last->stop, round->depot);
}

/* Each sum as the planner makes it, one step from the plan's own figures. */
static void compare_round(struct reading *r, unsigned k)
{
    const uint8_t *sheet = r->sheet.bytes;
    const struct round *round = &r->round[k];
    unsigned last = round->depot;
    double left = 0, distance = 0;
    long load = 0;
    for (unsigned i = round->first; i < round->first + round->stops; i++) {
        const struct visit *visit = &r->visit[i];
        load += planner_row_demand(sheet, visit->stop);
        distance += planner_distance(sheet, last, visit->stop);
        compare(r, k, "arrival", visit->stop, visit->arrival, left + planner_time(sheet, last, visit->stop));
        compare(r, k, "departure", visit->stop, visit->departure, visit->start + planner_row_service(sheet, visit->stop));
        compare(r, k, "load after it", visit->stop, (double)visit->load, (double)load);
        left = visit->departure;
        last = visit->stop;
    }
    if (round->stops == 0 && !round->rests_home)
        return;
    compare(r, k, "load", 0, (double)round->load, (double)load);
    compare(r, k, "distance", 0, round->distance, distance + planner_distance(sheet, last, round->depot));
    compare(r, k, "duration", 0, round->duration, round->rests_home ? round->rest_end : return_of(r, round));
}

static void compare_lateness(struct reading *r, unsigned k)
{
    const struct round *round = &r->round[k];
    double lateness = 0, lateness_cost = 0;
    for (unsigned i = round->first; i < round->first + round->stops; i++)
        if (r->visit[i].is_soft && r->visit[i].late > 0) {
            lateness += r->visit[i].late;
            lateness_cost += planner_row_penalty(r->sheet.bytes, r->visit[i].stop) * r->visit[i].late;
        }
    compare(r, k, "lateness", 0, round->lateness, lateness);
    compare(r, k, "cost of lateness", 0, round->lateness_cost, lateness_cost);
}

static void compare_rest(struct reading *r, unsigned k)
{
    const struct round *round = &r->round[k];
    double earliest = planner_vehicle_earliest(r->sheet.bytes, round->vehicle);
    uint32_t mark = round->rests_home ? PLANNER_REST_AT_HOME : PLANNER_REST;
    if (round->rest_place == 0) {
        compare(r, k, "start of a rest", 0, round->rest_start, 0);
        return;
    }
    double arrival = round->rests_home ? round->returned : r->visit[round->first + round->rest_place - 1].arrival;
    compare(r, k, "start of the rest", 0, round->rest_start, arrival < earliest ? earliest : arrival);
    if (!(planner_vehicle_marks(r->sheet.bytes, round->vehicle) & mark))
        compare(r, k, "place of a rest", 0, round->rest_place, 0);
}

static void compare_cost(struct reading *r)
{
    double cost = 0;
    for (unsigned k = 0; k < r->rounds; k++)
        cost += planner_vehicle_fixed_cost(r->sheet.bytes, r->round[k].vehicle)
                + planner_vehicle_cost_per_distance(r->sheet.bytes, r->round[k].vehicle)
                      * (r->round[k].distance + r->round[k].lateness_cost);
    if (cost == r->cost)
        return;
    if (r->strange++ == 0)
        tell("%s: the cost is %s, and %s gives %s", r->plan.name, exact(r->cost), r->sheet.name, exact(cost));
}

/* ---- rounds */

static unsigned vehicle_with(const uint8_t *sheet, uint32_t id)
{
    unsigned v = 0;
    while (planner_vehicle_id(sheet, v) != id) /* plan_fits has found it */
        v++;
    return v;
}

static void take_figures(struct reading *r, unsigned k)
{
    const uint8_t *sheet = r->sheet.bytes, *plan = r->plan.bytes;
    struct round *round = &r->round[k];
    round->id = planner_round_id(plan, k);
    round->vehicle = vehicle_with(sheet, round->id);
    round->depot = planner_vehicle_depot(sheet, round->vehicle);
    round->capacity = planner_vehicle_capacity(sheet, round->vehicle);
    round->load = planner_round_load(plan, k);
    round->rest_place = planner_round_rest_place(plan, k);
    round->distance = planner_round_distance(plan, k);
    round->duration = planner_round_duration(plan, k);
    round->lateness = planner_round_lateness(plan, k);
    round->lateness_cost = planner_round_lateness_cost(plan, k);
    round->rest_start = planner_round_rest_start(plan, k);
    round->rest_end = round->rest_start + planner_vehicle_rest_duration(sheet, round->vehicle);
    round->closes = (planner_row_marks(sheet, round->depot) & PLANNER_WINDOW) != 0;
    round->due = planner_row_due(sheet, round->depot);
    round->is_late = round->closes && round->duration > round->due;
    round->first = r->visits;
}

static int take_round(struct reading *r, unsigned k)
{
    struct round *round = &r->round[k];
    take_figures(r, k);
    for (unsigned stop = planner_round_first(r->plan.bytes, k); stop != 0; stop = planner_stop_next(r->plan.bytes, stop))
        take_visit(r, k, stop);
    if (round->rest_place > round->stops + 1) {
        tell("%s: round %u, byte %lu: its rest stands before stop %u of %u", r->plan.name, k + 1,
             (unsigned long)(planner_round_at(k) + PLANNER_ROUND_REST_PLACE), round->rest_place, round->stops);
        return WRONG;
    }
    round->rests_home = round->rest_place == round->stops + 1;
    round->returned = round->rests_home ? return_of(r, round) : round->duration;
    compare_round(r, k);
    compare_lateness(r, k);
    compare_rest(r, k);
    return DONE;
}

static int take_plan(struct reading *r)
{
    if (!plan_fits(r) || !all_figures_are_numbers(r))
        return WRONG;
    r->cost = planner_plan_cost(r->plan.bytes);
    r->rounds = planner_plan_rounds(r->plan.bytes);
    for (unsigned k = 0; k < r->rounds; k++)
        if (take_round(r, k) != DONE)
            return WRONG;
    for (unsigned stop = planner_plan_aside(r->plan.bytes); stop != 0; stop = planner_stop_next(r->plan.bytes, stop))
        r->aside[r->asides++] = stop;
    compare_cost(r);
    if (r->strange > 0)
        tell("%s: %u of its figures %s not what %s gives: is it another sheet's plan?", r->plan.name, r->strange,
             r->strange == 1 ? "is" : "are", r->sheet.name);
    return DONE;
}

int take_reading(struct reading *r, const struct call *call)
{
    memset(r, 0, sizeof *r);
    int status = read_files(&r->sheet, call->word[0], &r->plan, call->word[1]);
    if (status == DONE)
        status = take_sheet(r);
    return status != DONE ? status : take_plan(r);
}
