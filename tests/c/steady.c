/*
 * Calls the planner, the limiter, the biller, the dealer and the importer over and over in
 * one process, and looks ten times at the memory that the process holds and at the time
 * that a call takes.
 *
 *   steady CALLS
 *
 * The sheets are of all methods and sizes and are asked in turn, each with its plan to be
 * brought within half of its rounds, billed and dealt to crews, and with a text of as many
 * rows; every pass over them must give the answers, plans, bills, deals and sheets of the
 * first. The exit status is 1 where one does not, where the process holds more than a few
 * pages more than at the first look, or where a call of the last tenth takes above 1.5
 * times as long as one of the first, by the clock and by a fixed piece of work that is
 * timed beside the calls: other work on the machine slows both.
 */
#define _GNU_SOURCE
#include <fcntl.h>
#include <stdint.h>
#include <stdio.h>
#include <stdlib.h>
#include <time.h>
#include <unistd.h>

#include "plans.h"
#include "texts.h"

static const unsigned sizes[] = {0, 1, 2, 10, 30, PLANNER_MOST_ROWS};
static const unsigned depots[] = {1, 3};
enum { SIZES = sizeof sizes / sizeof sizes[0], DEPOTS = 2, WIDTHS = 2, METHODS = PLANNER_SWEEP + 1 };
enum { SHEETS = METHODS * SIZES * DEPOTS * WIDTHS, CALLS = 5 * SHEETS, LOOKS = 10, MOST_GROWTH = 16 };
static const double MOST_SLOWER = 1.5;

/* A sheet with what the first calls said of it and of its plan; a text and its sheet. */
struct asked {
    uint8_t *sheet, *plan, *limited, *bill, *deal, *text, *imported;
    size_t len, plan_len, bill_len, deal_len, text_len, imported_len;
    uint32_t answer, greatest, limit_answer, bill_answer, deal_answer;
    int32_t import_answer;
};

static struct asked all[SHEETS];

/* What one look sees: kilobytes held, and of the time since the look before the microseconds that a call and the
   fixed piece of work take. */
struct look {
    long held;
    double call, work;
};

static void end(const char *what)
{
    fprintf(stderr, "steady: %s\n", what);
    exit(1);
}

static void *room(size_t bytes)
{
    void *at = calloc(bytes, 1);
    if (at == NULL)
        end("no memory for the sheets");
    return at;
}

static uint32_t limit(const struct asked *a, uint8_t *plan_out)
{
    return limit_rounds(a->sheet, a->len, a->plan, a->plan_len, a->greatest, plan_out, a->plan_len);
}

static uint32_t bill(const struct asked *a, uint8_t *made)
{
    return bill_rounds(a->sheet, a->len, a->plan, a->plan_len, 700, 1100, 5000, made, a->bill_len);
}

static uint32_t deal(const struct asked *a, uint8_t *made)
{
    return deal_rounds(a->sheet, a->len, a->plan, a->plan_len, 3, made, a->deal_len);
}

static int32_t import(const struct asked *a, uint8_t *sheet)
{
    return import_solomon(a->text, a->text_len, sheet, a->imported_len);
}

/* A text of so many rows, and its sheet's buffer; of no rows it is refused. */
static void draw_asked_text(struct asked *a, unsigned rows, uint64_t *state)
{
    static struct text t;
    draw_text(&t, rows, state);
    a->text = memcpy(room(t.len), t.bytes, t.len);
    a->text_len = t.len;
    a->imported_len = PLANNER_IMPORT_BYTES(rows);
    a->imported = room(a->imported_len);
    a->import_answer = import(a, a->imported);
}

/* Sheet k of the set: tight rounds or wide ones. */
static void draw_asked(struct asked *a, unsigned k, uint64_t *state)
{
    struct shape shape;
    int wide = (int)(k % WIDTHS);
    shape.method = k / WIDTHS % METHODS;
    shape.rows = sizes[k / WIDTHS / METHODS / DEPOTS];
    shape.depots = shape.rows < 3 ? 1 : depots[k / WIDTHS / METHODS % DEPOTS];
    shape.vehicles = 8;
    shape.time_table = (unsigned)wide;
    shape.load = wide ? 500 : 20;
    shape.hours = wide ? 20 : 2;
    a->sheet = room(PLANNER_SHEET_BYTES(shape.rows, shape.vehicles, shape.time_table));
    a->len = draw_sheet(a->sheet, shape, state);
    a->plan_len = PLANNER_PLAN_BYTES(shape.rows);
    a->plan = room(a->plan_len);
    a->answer = plan_rounds(a->sheet, a->len, a->plan, a->plan_len);
    a->limited = room(a->plan_len);
    a->greatest = planner_plan_rounds(a->plan) / 2;
    a->limit_answer = limit(a, a->limited);
    a->bill_len = planner_bill_bytes(a->plan);
    a->bill = room(a->bill_len);
    a->bill_answer = bill(a, a->bill);
    a->deal_len = planner_deal_bytes(a->plan);
    a->deal = room(a->deal_len + 1); /* a plan may have no round */
    a->deal_answer = deal(a, a->deal);
    draw_asked_text(a, shape.rows, state);
}

static void held_to_first(int64_t answer, int64_t first, const uint8_t *made, const uint8_t *first_made, size_t len)
{
    if (answer != first)
        end("another answer than on the first call");
    if (memcmp(made, first_made, len) != 0)
        end("another plan, bill, deal or sheet than on the first call");
}

static void pass(void)
{
    static uint8_t plan[PLANNER_PLAN_BYTES(PLANNER_MOST_ROWS)], sheet[PLANNER_IMPORT_BYTES(PLANNER_MOST_ROWS)];
    static uint8_t charges[PLANNER_BILL_BYTES(PLANNER_MOST_ROWS)], crews[PLANNER_DEAL_BYTES(PLANNER_MOST_ROWS)];
    for (const struct asked *a = all; a < all + SHEETS; a++) {
        memset(plan, 0, a->plan_len);
        uint32_t answer = plan_rounds(a->sheet, a->len, plan, a->plan_len);
        held_to_first(answer, a->answer, plan, a->plan, a->plan_len);
        memset(plan, 0, a->plan_len);
        answer = limit(a, plan);
        held_to_first(answer, a->limit_answer, plan, a->limited, a->plan_len);
        memset(charges, 0, a->bill_len);
        held_to_first(bill(a, charges), a->bill_answer, charges, a->bill, a->bill_len);
        memset(crews, 0, a->deal_len);
        held_to_first(deal(a, crews), a->deal_answer, crews, a->deal, a->deal_len);
        memset(sheet, 0, a->imported_len);
        held_to_first(import(a, sheet), a->import_answer, sheet, a->imported, a->imported_len);
    }
}

/* The fixed piece of work: the sum of the least legs out of the rows of the largest sheet. */
static double work(void)
{
    const uint8_t *sheet = all[SHEETS - 1].sheet;
    double sum = 0.0;
    for (unsigned from = 0; from < PLANNER_MOST_ROWS; from++) {
        double least = 1e9;
        for (unsigned to = 0; to < PLANNER_MOST_ROWS; to++) {
            double leg = planner_distance(sheet, from, to);
            least = leg < least ? leg : least;
        }
        sum += least;
    }
    return sum;
}

/* VmRSS, in kilobytes. */
static long held(void)
{
    static char text[1 << 13];
    int status = open("/proc/self/status", O_RDONLY);
    ssize_t len = status < 0 ? -1 : read(status, text, sizeof text - 1);
    text[len > 0 ? len : 0] = 0;
    const char *line = strstr(text, "VmRSS:");
    if (line == NULL || close(status) != 0)
        end("/proc/self/status does not tell");
    return strtol(line + strlen("VmRSS:"), NULL, 10);
}

/* Of this process alone, so that others on the machine count less. */
static double seconds(void)
{
    struct timespec now;
    if (clock_gettime(CLOCK_PROCESS_CPUTIME_ID, &now) != 0)
        end("no clock");
    return (double)now.tv_sec + 1e-9 * (double)now.tv_nsec;
}

static struct look look_after(unsigned long passes)
{
    struct look look = {0, 0, 0};
    for (unsigned long i = 0; i < passes; i++) {
        double began = seconds();
        pass();
        double passed = seconds();
        if (!(work() >= 0.0))
            end("the sheets have changed");
        look.call += 1e6 * (passed - began) / ((double)passes * CALLS);
        look.work += 1e6 * (seconds() - passed) / (double)passes;
    }
    look.held = held();
    return look;
}

static void tell(unsigned long calls, struct look look)
{
    printf("steady: after %lu calls %ld kB held, %.2f us a call (%.1f us the fixed work)\n", calls, look.held, look.call, look.work);
    fflush(stdout);
}

int main(int argc, char **argv)
{
    uint64_t state = UINT64_C(0x9e3779b97f4a7c15);
    unsigned long calls = argc == 2 ? strtoul(argv[1], NULL, 10) : 0;
    unsigned long planned = 0, limited = 0, billed = 0, dealt = 0, imported = 0;
    unsigned long passes = (calls + LOOKS * CALLS - 1) / (LOOKS * CALLS);
    struct look first, last;
    if (calls == 0) {
        fprintf(stderr, "usage: steady CALLS\n");
        return 2;
    }
    for (unsigned k = 0; k < SHEETS; k++) {
        draw_asked(&all[k], k, &state);
        planned += all[k].answer == PLANNER_ACCEPTED;
        limited += all[k].limit_answer == PLANNER_ACCEPTED;
        billed += all[k].bill_answer == PLANNER_ACCEPTED;
        dealt += all[k].deal_answer == PLANNER_ACCEPTED;
        imported += all[k].import_answer > 0;
    }
    printf("steady: %d sheets and texts in turn, %lu planned, %lu limited, %lu billed, %lu dealt and %lu imported\n", SHEETS,
           planned, limited, billed, dealt, imported);
    /* What is loaded at its first use is so before the first look that counts. */
    first = last = look_after(1);
    tell(0, last);
    for (unsigned long i = 1; i <= LOOKS; i++) {
        last = look_after(passes);
        first = i == 1 ? last : first;
        tell(i * passes * CALLS, last);
        if (last.held > first.held + MOST_GROWTH)
            end("the process holds more and more");
    }
    if (last.call > MOST_SLOWER * first.call && last.call / last.work > MOST_SLOWER * first.call / first.work)
        end("a call takes longer and longer");
    return 0;
}
