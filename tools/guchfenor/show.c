/* show: a table for each round. */
#include "names.h"
#include "numbers.h"
#include "reading.h"
#include "table.h"

enum column { PLACE, STOP, ARRIVAL, REST, WAITING, START, DEPARTURE, LOAD, WINDOW, LATE, COLUMNS };

static struct table table;

static void begin_round(void)
{
    static const char *const names[COLUMNS] = {"place", "stop",      "arrival", "rest",   "waiting",
                                               "start", "departure", "load",    "window", "late"};
    begin_table(&table, names, COLUMNS);
}

static void put_visit(const struct round *round, const struct visit *visit)
{
    set_cell(&table, PLACE, "%u", visit->place);
    set_cell(&table, STOP, "%u", visit->stop);
    set_cell(&table, ARRIVAL, "%s", plain(visit->arrival));
    if (visit->rested)
        set_cell(&table, REST, "%s to %s", plain(round->rest_start), plain(round->rest_end));
    if (visit->waiting > 0)
        set_cell(&table, WAITING, "%s", plain(visit->waiting));
    set_cell(&table, START, "%s", plain(visit->start));
    set_cell(&table, DEPARTURE, "%s", plain(visit->departure));
    set_cell(&table, LOAD, "%ld", visit->load);
    if (visit->has_window)
        set_cell(&table, WINDOW, "%s to %s%s", plain(visit->ready), plain(visit->due), visit->is_soft ? ", soft" : "");
    if (visit->late > 0)
        set_cell(&table, LATE, "%s%s", plain(visit->late), visit->is_soft ? "" : " MISSED");
    next_line(&table);
}

/* A rest at the depot, after the last stop. */
static void put_home(const struct round *round)
{
    set_cell(&table, PLACE, "%u", round->rest_place);
    set_cell(&table, STOP, "depot");
    set_cell(&table, ARRIVAL, "%s", plain(round->returned));
    set_cell(&table, REST, "%s to %s", plain(round->rest_start), plain(round->rest_end));
    if (round->rest_start > round->returned)
        set_cell(&table, WAITING, "%s", plain(round->rest_start - round->returned));
    next_line(&table);
}

static void print_limits(FILE *out, const uint8_t *sheet, unsigned vehicle)
{
    uint32_t marks = planner_vehicle_marks(sheet, vehicle);
    if (marks & PLANNER_MAX_DISTANCE)
        fprintf(out, ", max distance %s", plain(planner_vehicle_max_distance(sheet, vehicle)));
    if (marks & PLANNER_MAX_DURATION)
        fprintf(out, ", max duration %s", plain(planner_vehicle_max_duration(sheet, vehicle)));
    if (marks & PLANNER_REST)
        fprintf(out, ", rest of %s from %s to %s", plain(planner_vehicle_rest_duration(sheet, vehicle)),
                plain(planner_vehicle_earliest(sheet, vehicle)), plain(planner_vehicle_latest(sheet, vehicle)));
    if (marks & PLANNER_REST_AT_HOME)
        fputs(", at home too", out);
}

static void print_end(FILE *out, const struct reading *r, const struct round *round)
{
    const char *late = round->is_late ? " AFTER ITS DUE" : "";
    fprintf(out, "  back at depot %u at %s%s; distance %s", round->depot, plain(round->returned), round->rests_home ? "" : late,
            plain(round->distance));
    if (round->rests_home)
        fprintf(out, "; rest there, %s to %s%s", plain(round->rest_start), plain(round->rest_end), late);
    else if (round->rest_place > 0)
        fprintf(out, "; rest before stop %u, %s to %s", r->visit[round->first + round->rest_place - 1].stop,
                plain(round->rest_start), plain(round->rest_end));
    if (round->lateness != 0 || round->lateness_cost != 0)
        fprintf(out, "; lateness %s, which costs %s", plain(round->lateness), plain(round->lateness_cost));
    fputc('\n', out);
}

static void print_round(FILE *out, const struct reading *r, unsigned k)
{
    const struct round *round = &r->round[k];
    fprintf(out, "\nround %u: vehicle %lu from depot %u, load %ld of %ld%s", k + 1, (unsigned long)round->id, round->depot,
            round->load, round->capacity, round->load > round->capacity ? " OVER" : "");
    print_limits(out, r->sheet.bytes, round->vehicle);
    if (round->closes)
        fprintf(out, ", home by %s", plain(round->due));
    fputc('\n', out);
    if (round->stops == 0 && !round->rests_home) {
        fputs("  empty\n", out);
        return;
    }
    begin_round();
    for (unsigned i = 0; i < round->stops; i++)
        put_visit(round, &r->visit[round->first + i]);
    if (round->rests_home)
        put_home(round);
    print_table(out, &table);
    print_end(out, r, round);
}

static void print_totals(FILE *out, const struct reading *r)
{
    double distance = 0, duration = 0, lateness = 0, lateness_cost = 0, waiting = 0;
    long load = 0;
    for (unsigned k = 0; k < r->rounds; k++) {
        distance += r->round[k].distance;
        duration += r->round[k].duration;
        lateness += r->round[k].lateness;
        lateness_cost += r->round[k].lateness_cost;
        load += r->round[k].load;
        if (r->round[k].rests_home)
            waiting += r->round[k].rest_start - r->round[k].returned;
    }
    for (unsigned i = 0; i < r->visits; i++)
        waiting += r->visit[i].waiting;
    fprintf(out, "\nin all: load %ld, distance %s, duration %s, waiting %s, lateness %s, which costs %s\n", load,
            plain(distance), plain(duration), plain(waiting), plain(lateness), plain(lateness_cost));
}

static void print_missed(FILE *out, const struct reading *r)
{
    unsigned missed = 0;
    for (unsigned i = 0; i < r->visits; i++)
        missed += r->visit[i].late > 0 && !r->visit[i].is_soft;
    if (missed > 0)
        fprintf(out, "hard windows missed: %u\n", missed);
    missed = 0;
    for (unsigned k = 0; k < r->rounds; k++)
        missed += r->round[k].is_late != 0;
    if (missed > 0)
        fprintf(out, "rounds back after their depot's due: %u\n", missed);
}

/* A vehicle's rounds, where it makes several. */
static void print_vehicle(FILE *out, const struct reading *r, unsigned v)
{
    unsigned count = 0;
    for (unsigned k = 0; k < r->rounds; k++)
        count += r->round[k].vehicle == v;
    if (count < 2)
        return;
    fprintf(out, "vehicle %lu makes %u rounds:", (unsigned long)planner_vehicle_id(r->sheet.bytes, v), count);
    for (unsigned k = 0; k < r->rounds; k++)
        if (r->round[k].vehicle == v)
            fprintf(out, " %u", k + 1);
    fputc('\n', out);
}

static void print_aside(FILE *out, const struct reading *r)
{
    if (r->asides == 0) {
        fputs("no stop is set aside\n", out);
        return;
    }
    fprintf(out, "set aside, %u stop%s:\n", r->asides, plural(r->asides));
    for (unsigned i = 0; i < r->asides; i++)
        fprintf(out, "  stop %u: %s\n", r->aside[i], planner_reason_text(planner_stop_reason(r->plan.bytes, r->aside[i])));
}

static int run_show(const struct call *call)
{
    static struct reading r;
    int status = take_reading(&r, call);
    if (status != DONE)
        return status;
    unsigned stops = r.rows - depots_there(&r);
    printf("%u stop%s, %u round%s, %u set aside; method %s; cost %s\n", stops, plural(stops), r.rounds, plural(r.rounds),
           r.asides, method_name(r.method), plain(r.cost));
    for (unsigned k = 0; k < r.rounds; k++)
        print_round(stdout, &r, k);
    print_totals(stdout, &r);
    print_missed(stdout, &r);
    for (unsigned v = 0; v < r.vehicles; v++)
        print_vehicle(stdout, &r, v);
    print_aside(stdout, &r);
    status = close_out(stdout, "standard output");
    return status == DONE && r.strange > 0 ? WRONG : status;
}

const struct command show_command = {
    "show", "show SHEET PLAN", "print a plan's rounds as tables", 2, 2, 0, run_show,
    "Reads a sheet and a plan of it and prints a table for each round: its vehicle and\n"
    "depot, load against capacity, its limits and when it has to be home (the depot's\n"
    "due: AFTER ITS DUE where it is not), and for each stop the arrival, the rest and the\n"
    "waiting, the start of service, the departure, the load after it, its window and how\n"
    "late it is (MISSED: a hard window; a soft one costs); a rest at the depot on return\n"
    "has a line after the stops. Then come totals, vehicles that make several rounds, and\n"
    "the stops set aside, each with the reason. Times are in the sheet's unit, up to three\n"
    "decimals. Arrival, departure, loads, sums, the rest's start and reasons are the plan's;\n"
    "waiting, start, the rest's end, the return before a rest at the depot and how late a\n"
    "stop is are worked out with the sheet.\n\n"
    "A plan whose counts, links or reasons do not fit the sheet is told and not followed.\n"
    "One whose figures are not what the sheet gives is shown, and told; the status is then\n"
    "1.\n"};
