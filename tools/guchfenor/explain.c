/* explain: what is wrong with a refused sheet, by faults.c's own reading; what an accepted one holds. */
#include "faults.h"
#include "files.h"
#include "names.h"
#include "numbers.h"

/* A bill and a deal of every header's rounds and a plan out, for the library to answer with. */
static uint8_t bill[PLANNER_BILL_BYTES(UINT16_MAX)], deal[PLANNER_DEAL_BYTES(UINT16_MAX)];
static uint8_t plan_out[PLANNER_PLAN_BYTES(PLANNER_MOST_ROWS)];

static int print_faults(const struct faults *faults, const char *sheet_name, const char *plan_name)
{
    printf("refused %u: %s\n", refusal_of(faults), planner_refusal_text(refusal_of(faults)));
    for (unsigned k = 0; k < faults->count && k < MOST_TOLD; k++) {
        const struct fault *fault = &faults->list[k];
        printf("%s%s, byte %lu: %s: %s\n", k == 0 ? "" : "also ", fault->part == OF_PLAN ? plan_name : sheet_name,
               (unsigned long)fault->at, fault->where, fault->what);
    }
    if (faults->count > MOST_TOLD)
        printf("and %u more\n", faults->count - MOST_TOLD);
    return WRONG;
}

/* ---- what an accepted sheet holds */

struct tally {
    unsigned hard, soft, useless, far_depots;
    long demand, most_demand;
};

static void count_row(struct tally *t, const uint8_t *sheet, unsigned row)
{
    uint32_t marks = planner_row_marks(sheet, row);
    long demand = planner_row_demand(sheet, row);
    t->hard += (marks & PLANNER_WINDOW) && !(marks & PLANNER_PENALTY);
    t->soft += (marks & PLANNER_WINDOW) && (marks & PLANNER_PENALTY);
    t->useless += !(marks & PLANNER_WINDOW) && (marks & PLANNER_PENALTY);
    t->far_depots += (marks & PLANNER_DEPOT) != 0;
    t->demand += demand;
    if (demand > t->most_demand)
        t->most_demand = demand;
}

/* A depot's window, where it has one: its due is the latest return. */
static void print_depot(const uint8_t *sheet, unsigned row)
{
    uint32_t marks = planner_row_marks(sheet, row);
    if (!(marks & PLANNER_WINDOW))
        return;
    printf("depot %u: rounds are home by %s", row, plain(planner_row_due(sheet, row)));
    if (planner_row_ready(sheet, row) > 0)
        printf("; its ready, %s, has no effect", plain(planner_row_ready(sheet, row)));
    if (marks & PLANNER_PENALTY)
        fputs("; its penalty switches the rules of soft windows on", stdout);
    if (planner_sheet_method(sheet) == PLANNER_NEAREST_NEIGHBOR)
        fputs("; not asked of vehicles without a rest by this method", stdout);
    putchar('\n');
}

static void print_rows(const uint8_t *sheet)
{
    unsigned rows = planner_rows(sheet), depots = planner_depots(sheet);
    struct tally t = {0, 0, 0, 0, 0, 0};
    for (unsigned row = depots; row < rows; row++)
        count_row(&t, sheet, row);
    unsigned there = depots < rows ? depots : rows;
    printf("%u row%s: %u depot%s, %u stop%s\n", rows, plural(rows), there, plural(there), rows - there, plural(rows - there));
    printf("demand %ld in all, %ld at most\n", t.demand, t.most_demand);
    printf("windows: %u hard, %u soft (with a penalty)\n", t.hard, t.soft);
    for (unsigned row = 0; row < there; row++)
        print_depot(sheet, row);
    if (t.useless > 0)
        printf("note: %u stop%s a penalty and no window, which has no effect\n", t.useless, t.useless == 1 ? " has" : "s have");
    if (t.far_depots > 0)
        printf("note: %u stop%s a depot mark after the leading rows, which means nothing\n", t.far_depots,
               t.far_depots == 1 ? " has" : "s have");
    if (rows > 0 && !(planner_row_marks(sheet, 0) & PLANNER_DEPOT))
        puts("note: row 0 has no depot mark, and is the depot all the same");
}

static void print_vehicle(const uint8_t *sheet, unsigned v)
{
    uint32_t marks = planner_vehicle_marks(sheet, v);
    printf("vehicle %lu: depot %lu, capacity %ld, cost %s a distance and %s fixed",
           (unsigned long)planner_vehicle_id(sheet, v), (unsigned long)planner_vehicle_depot(sheet, v),
           (long)planner_vehicle_capacity(sheet, v), plain(planner_vehicle_cost_per_distance(sheet, v)),
           plain(planner_vehicle_fixed_cost(sheet, v)));
    if (marks & PLANNER_MAX_DISTANCE)
        printf(", max distance %s", plain(planner_vehicle_max_distance(sheet, v)));
    if (marks & PLANNER_MAX_DURATION)
        printf(", max duration %s", plain(planner_vehicle_max_duration(sheet, v)));
    if (marks & PLANNER_REST)
        printf(", rest of %s from %s to %s", plain(planner_vehicle_rest_duration(sheet, v)),
               plain(planner_vehicle_earliest(sheet, v)), plain(planner_vehicle_latest(sheet, v)));
    if (marks & PLANNER_REST_AT_HOME)
        fputs(", at home too", stdout);
    putchar('\n');
}

static void print_sheet(const uint8_t *sheet)
{
    printf("method %u, %s\n", planner_sheet_method(sheet), method_name(planner_sheet_method(sheet)));
    print_rows(sheet);
    printf("legs: distances%s\n", planner_time_table(sheet) ? " and a time table" : ", which serve as times too");
    printf("%u vehicle%s\n", planner_vehicles(sheet), plural(planner_vehicles(sheet)));
    for (unsigned v = 0; v < planner_vehicles(sheet); v++)
        print_vehicle(sheet, v);
}

/* ---- a plan beside it */

static int print_depots(const uint8_t *sheet)
{
    printf("refused 9: %s\n%u depots, which show, draw, bill and deal take and limit does not\n",
           planner_refusal_text(PLANNER_SEVERAL_DEPOTS), planner_depots(sheet));
    return WRONG;
}

static int explain_plan(const struct file *sheet, const struct file *plan)
{
    struct faults faults;
    unsigned rows = planner_rows(sheet->bytes);
    find_plan_faults(&faults, sheet->bytes, plan->bytes);
    uint32_t answer = bill_rounds(sheet->bytes, sheet->len, plan->bytes, plan->len, 0, 0, 0, bill,
                                  planner_bill_bytes(plan->bytes));
    if (refusal_of(&faults) != answer)
        return differs(plan->name, refusal_of(&faults), answer);
    answer = deal_rounds(sheet->bytes, sheet->len, plan->bytes, plan->len, 1, deal, planner_deal_bytes(plan->bytes));
    if (refusal_of(&faults) != answer)
        return differs(plan->name, refusal_of(&faults), answer);
    unsigned here = planner_depots(sheet->bytes) > 1 ? PLANNER_SEVERAL_DEPOTS : refusal_of(&faults);
    answer = limit_rounds(sheet->bytes, sheet->len, plan->bytes, plan->len, UINT32_MAX, plan_out, PLANNER_PLAN_BYTES(rows));
    if (here != answer)
        return differs(plan->name, here, answer);
    if (planner_plan_rows(plan->bytes) != rows)
        printf("note: the plan's header says %u rows and the sheet's %u; limit, bill and deal do not read it, show and draw do\n",
               planner_plan_rows(plan->bytes), rows);
    if (faults.count > 0 && here == PLANNER_SEVERAL_DEPOTS)
        print_faults(&faults, sheet->name, plan->name);
    if (here == PLANNER_SEVERAL_DEPOTS)
        return print_depots(sheet->bytes);
    if (faults.count > 0)
        return print_faults(&faults, sheet->name, plan->name);
    printf("the plan is one that limit, bill and deal take: %u round%s\n", planner_plan_rounds(plan->bytes),
           plural(planner_plan_rounds(plan->bytes)));
    return DONE;
}

static int explain(const struct file *sheet, const struct file *plan)
{
    struct faults faults;
    size_t plan_len = plan != NULL ? plan->len : plan_bytes_of(sheet->bytes, sheet->len);
    find_faults(&faults, sheet->bytes, sheet->len, plan_len);
    uint32_t answer = check_sheet(sheet->bytes, sheet->len, plan_len);
    if (refusal_of(&faults) != answer)
        return differs(sheet->name, refusal_of(&faults), answer);
    if (faults.count > 0)
        return print_faults(&faults, sheet->name, plan != NULL ? plan->name : "the plan");
    printf("%s: accepted, %lu bytes\n", sheet->name, (unsigned long)sheet->len);
    print_sheet(sheet->bytes);
    return plan != NULL ? explain_plan(sheet, plan) : DONE;
}

static int run_explain(const struct call *call)
{
    struct file sheet, plan;
    if (call->words == 1)
        return read_file(&sheet, call->word[0]) != DONE ? UNUSABLE : explain(&sheet, NULL);
    if (read_files(&sheet, call->word[0], &plan, call->word[1]) != DONE)
        return UNUSABLE;
    return explain(&sheet, &plan);
}

const struct command explain_command = {
    "explain", "explain SHEET [PLAN]", "say what is wrong with a sheet, or what it holds", 1, 2, 0, run_explain,
    "Reads a sheet and says on standard output whether the planner takes it: the number\n"
    "and sentence of the first refusal that holds, then byte, row, field and value of\n"
    "what is wrong, or else what the sheet holds. With a PLAN it also says whether limit,\n"
    "bill and deal take that, as refusals 4, 9 (limit's alone) and 10 tell.\n\n"
    "It reads the bytes by code of its own and compares its answer with the planner's:\n"
    "should they differ, it says so loudly and ends with status 2.\n"};
