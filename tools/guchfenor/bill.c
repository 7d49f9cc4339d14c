/* bill: what a plan's rounds cost by a tariff. Charges, begun units and figures are all the library's own. */
#include <string.h>

#include "files.h"
#include "numbers.h"
#include "table.h"
#include "walk.h"

enum { DISTANCE_UNIT = 1000, DURATION_UNIT = 900 };
enum { DISTANCE_RATE, DURATION_RATE, LEAST, RATES };
enum column { ROUND, VEHICLE, DISTANCE, BEGUN_DISTANCE, DURATION, BEGUN_DURATION, CENTS, NOTE, COLUMNS };

static const char *const rate_names[RATES] = {"the rate of distance", "the rate of duration", "the least charge"};

struct billing {
    struct file sheet, plan;
    uint32_t rates[RATES];
    unsigned rounds;
    struct walk walk;
    /* Bills of every header's rounds, those that are refused too; then those of a plan that is not. */
    uint8_t charges[PLANNER_BILL_BYTES(UINT16_MAX)];
    uint8_t begun_distance[PLANNER_BILL_BYTES(PLANNER_MOST_ROWS)], begun_duration[PLANNER_BILL_BYTES(PLANNER_MOST_ROWS)];
};

static int read_rates(struct billing *b, const char *const *words)
{
    for (int i = 0; i < RATES; i++) {
        struct word number = {words[i], strlen(words[i])};
        int64_t cents;
        if (!read_whole(number, 0, UINT32_MAX, &cents)) {
            tell("%s has to be a whole number of cents from 0 to %d, not %s", rate_names[i], PLANNER_MOST_RATE, words[i]);
            return UNUSABLE;
        }
        b->rates[i] = (uint32_t)cents;
    }
    return DONE;
}

static uint32_t bill_at(const struct billing *b, const uint32_t *rates, uint8_t *bill)
{
    size_t bill_len = b->plan.len < PLANNER_PLAN_HEADER_BYTES ? 0 : planner_bill_bytes(b->plan.bytes);
    return bill_rounds(b->sheet.bytes, b->sheet.len, b->plan.bytes, b->plan.len, rates[DISTANCE_RATE], rates[DURATION_RATE],
                       rates[LEAST], bill, bill_len);
}

/* What the charges rest on. At a cent a unit and no least charge a bill has the begun units. */
static void take_grounds(struct billing *b)
{
    static const uint32_t by_distance[RATES] = {1, 0, 0}, by_duration[RATES] = {0, 1, 0};
    bill_at(b, by_distance, b->begun_distance);
    bill_at(b, by_duration, b->begun_duration);
    walk_anew(&b->walk, &b->sheet, &b->plan);
}

static void put_grounds(struct table *table, const struct billing *b, unsigned k)
{
    uint64_t distance = planner_bill_charge(b->begun_distance, k), duration = planner_bill_charge(b->begun_duration, k);
    if (b->walk.there) {
        set_cell(table, DISTANCE, "%s", figure(planner_round_distance(b->walk.plan, k), distance, DISTANCE_UNIT));
        set_cell(table, DURATION, "%s", figure(planner_round_duration(b->walk.plan, k), duration, DURATION_UNIT));
    }
    set_cell(table, BEGUN_DISTANCE, "%llu", (unsigned long long)distance);
    set_cell(table, BEGUN_DURATION, "%llu", (unsigned long long)duration);
    if (planner_bill_charge(b->charges, k) > distance * b->rates[DISTANCE_RATE] + duration * b->rates[DURATION_RATE])
        set_cell(table, NOTE, "least charge");
}

static void put_round(struct table *table, const struct billing *b, unsigned k)
{
    set_cell(table, ROUND, "%u", k + 1);
    set_cell(table, VEHICLE, "%lu", (unsigned long)planner_round_id(b->plan.bytes, k));
    if (planner_round_first(b->plan.bytes, k) == 0)
        set_cell(table, NOTE, "empty");
    else
        put_grounds(table, b, k);
    set_cell(table, CENTS, "%llu", (unsigned long long)planner_bill_charge(b->charges, k));
    next_line(table);
}

static int print_bill(const struct billing *b)
{
    static const char *const names[COLUMNS] = {"round",    "vehicle",    "distance", "begun 1000s",
                                               "duration", "begun 900s", "cents",    "note"};
    static struct table table;
    printf("%u round%s; in cents: %lu per begun %d of distance, %lu per begun %d of duration, at least %lu a round\n\n",
           b->rounds, plural(b->rounds), (unsigned long)b->rates[DISTANCE_RATE], DISTANCE_UNIT,
           (unsigned long)b->rates[DURATION_RATE], DURATION_UNIT, (unsigned long)b->rates[LEAST]);
    begin_table(&table, names, COLUMNS);
    for (unsigned k = 0; k < b->rounds; k++)
        put_round(&table, b, k);
    if (b->rounds > 0) {
        print_table(stdout, &table);
        putchar('\n');
    }
    printf("in all: %llu cents\n", (unsigned long long)planner_bill_sum(b->charges, b->rounds));
    if (!b->walk.there)
        puts("distances and durations are shown for sheets of one depot only");
    return close_out(stdout, "standard output");
}

static int rates_refused(const struct billing *b)
{
    fprintf(stderr, "refused %d: %s\n", PLANNER_BAD_RATE, planner_refusal_text(PLANNER_BAD_RATE));
    for (int i = 0; i < RATES; i++)
        if (b->rates[i] > PLANNER_MOST_RATE)
            tell("%s is %lu", rate_names[i], (unsigned long)b->rates[i]);
    return WRONG;
}

static int run_bill(const struct call *call)
{
    static struct billing b;
    if (read_rates(&b, call->word + 2) != DONE || read_files(&b.sheet, call->word[0], &b.plan, call->word[1]) != DONE)
        return UNUSABLE;
    uint32_t answer = bill_at(&b, b.rates, b.charges);
    if (answer == PLANNER_BAD_RATE)
        return rates_refused(&b);
    if (answer != PLANNER_ACCEPTED)
        return turned_back(answer, call->word[0], call->word[1]);
    b.rounds = planner_plan_rounds(b.plan.bytes);
    take_grounds(&b);
    return print_bill(&b);
}

const struct command bill_command = {
    "bill", "bill SHEET PLAN RATE RATE LEAST", "bill a plan's rounds by a haulage tariff", 5, 5, 0, run_bill,
    "Reads a sheet and a plan of it and prints what each round costs by a tariff, and the\n"
    "total, in whole cents:\n\n"
    "  RATE    per begun 1000 of distance\n"
    "  RATE    per begun 900 of duration\n"
    "  LEAST   what a round costs at least\n\n"
    "each a whole number of cents from 0 to 1000000. A figure of exactly 1000 is one begun\n"
    "1000, a little more is two. An empty round costs 0, whatever LEAST is.\n\n"
    "The charges are the library's, and so is what stands beside them: the begun units, and\n"
    "distance and duration in the sheet's units, walked anew. What the plan says of its\n"
    "distances and durations is not read: where it says otherwise, `guchfenor show` tells.\n"
    "With several depots the distances and durations are left out.\n\n"
    "What is turned back is told as `refused N: ..` on standard error.\n"};
