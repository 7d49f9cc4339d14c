/* deal: a plan's rounds dealt to crews. Crews and durations are the library's; rounding up and adding is done here again. */
#include "deal.h"

#include <string.h>

#include "numbers.h"
#include "table.h"

enum column { ROUND, VEHICLE, DURATION, COUNTED, NOTE, COLUMNS };

struct dealing {
    struct file sheet, plan;
    struct deal deal;
};

int read_crews(uint32_t *crews, const char *word)
{
    struct word number = {word, strlen(word)};
    int64_t value;
    if (!read_whole(number, 0, UINT32_MAX, &value)) {
        tell("the number of crews has to be a whole number from 1 to %d, not %s", PLANNER_MOST_CREWS, word);
        return UNUSABLE;
    }
    *crews = (uint32_t)value;
    return DONE;
}

uint32_t deal_plan(struct deal *deal, uint32_t crews, const struct file *sheet, const struct file *plan)
{
    size_t deal_len = plan->len < PLANNER_PLAN_HEADER_BYTES ? 0 : planner_deal_bytes(plan->bytes);
    uint32_t answer = deal_rounds(sheet->bytes, sheet->len, plan->bytes, plan->len, crews, deal->crew, deal_len);
    if (answer != PLANNER_ACCEPTED)
        return answer;
    deal->crews = crews;
    deal->rounds = planner_plan_rounds(plan->bytes);
    walk_anew(&deal->walk, sheet, plan);
    return answer;
}

int deal_refused(uint32_t answer, uint32_t crews, const char *sheet, const char *plan)
{
    if (answer != PLANNER_BAD_CREWS)
        return turned_back(answer, sheet, plan);
    fprintf(stderr, "refused %d: %s\n", PLANNER_BAD_CREWS, planner_refusal_text(PLANNER_BAD_CREWS));
    tell("the number of crews is %lu", (unsigned long)crews);
    return WRONG;
}

uint64_t counted(const struct deal *deal, unsigned round)
{
    double duration = deal->walk.there ? planner_round_duration(deal->walk.plan, round) : 0;
    uint64_t whole = (uint64_t)duration;
    return whole + ((double)whole < duration);
}

unsigned rounds_of(const struct deal *deal, unsigned crew, uint64_t *total)
{
    unsigned rounds = 0;
    *total = 0;
    for (unsigned k = 0; k < deal->rounds; k++)
        if (planner_deal_crew(deal->crew, k) == crew) {
            *total += counted(deal, k);
            rounds++;
        }
    return rounds;
}

static void put_round(struct table *table, const struct dealing *d, unsigned k)
{
    set_cell(table, ROUND, "%u", k + 1);
    set_cell(table, VEHICLE, "%lu", (unsigned long)planner_round_id(d->plan.bytes, k));
    if (d->deal.walk.there) {
        uint64_t whole = counted(&d->deal, k);
        set_cell(table, DURATION, "%s", figure(planner_round_duration(d->deal.walk.plan, k), whole, 1));
        set_cell(table, COUNTED, "%llu", (unsigned long long)whole);
    }
    if (planner_round_first(d->plan.bytes, k) == 0)
        set_cell(table, NOTE, "empty");
    next_line(table);
}

/* The crew's total. */
static uint64_t print_crew(const struct dealing *d, unsigned crew)
{
    static const char *const names[COLUMNS] = {"round", "vehicle", "duration", "counted", "note"};
    static struct table table;
    uint64_t total;
    unsigned rounds = rounds_of(&d->deal, crew, &total);
    printf("\ncrew %u: %u round%s", crew, rounds, plural(rounds));
    if (d->deal.walk.there)
        printf(", total %llu", (unsigned long long)total);
    putchar('\n');
    begin_table(&table, names, COLUMNS);
    for (unsigned k = 0; k < d->deal.rounds; k++)
        if (planner_deal_crew(d->deal.crew, k) == crew)
            put_round(&table, d, k);
    if (rounds > 0)
        print_table(stdout, &table);
    return total;
}

static int print_deal(const struct dealing *d)
{
    const struct deal *deal = &d->deal;
    uint64_t sum = 0;
    printf("%u round%s dealt to %u crew%s; durations count in whole units, rounded up\n", deal->rounds, plural(deal->rounds),
           (unsigned)deal->crews, plural(deal->crews));
    for (unsigned crew = 1; crew <= deal->crews; crew++)
        sum += print_crew(d, crew);
    if (deal->walk.there)
        printf("\nin all: %llu\n", (unsigned long long)sum);
    else
        puts("\ndurations and totals are shown for sheets of one depot only");
    return close_out(stdout, "standard output");
}

static int run_deal(const struct call *call)
{
    static struct dealing d;
    uint32_t crews;
    if (read_crews(&crews, call->word[0]) != DONE || read_files(&d.sheet, call->word[1], &d.plan, call->word[2]) != DONE)
        return UNUSABLE;
    uint32_t answer = deal_plan(&d.deal, crews, &d.sheet, &d.plan);
    return answer == PLANNER_ACCEPTED ? print_deal(&d) : deal_refused(answer, crews, call->word[1], call->word[2]);
}

const struct command deal_command = {
    "deal", "deal CREWS SHEET PLAN", "deal a plan's rounds to crews", 3, 3, 0, run_deal,
    "Reads a sheet and a plan of it, shares the rounds among CREWS crews, 1 to 8, and prints\n"
    "each crew's rounds and its total. The longest round not yet dealt goes to the crew with\n"
    "the least total so far; of equally long rounds the lower one goes first, and of equal\n"
    "totals the lower crew takes it. A round counts with its duration in whole units,\n"
    "rounded up: 24 counts 24, a little more counts 25. An empty round is dealt like any\n"
    "other.\n\n"
    "The crews are the library's, and so are the durations, in the sheet's unit, walked\n"
    "anew; that they count as whole numbers, and their totals, is worked out here again. What\n"
    "the plan says of its durations is not read: where it says otherwise, `guchfenor show`\n"
    "tells. With several depots durations and totals are left out. `guchfenor draw --crews`\n"
    "draws the same.\n\n"
    "What is turned back is told as `refused N: ..` on standard error.\n"};
