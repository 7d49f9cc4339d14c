/*
 * How much stack a call takes: each is made on a stack that was filled with a pattern,
 * and the lowest word that is another afterwards tells. In bytes, the caller's own
 * frame included; over several sheets of the most rows for each method, for the check,
 * the limiter, the biller and the dealer, and over such texts for the importer; or for the
 * sheets in files.
 *
 *   stack [FILE..]    the exit status is 1 where a call takes more than planner.h says,
 *                     by PLANNER_STACK_SAVINGS and PLANNER_STACK
 */
#define _GNU_SOURCE
#include <stdint.h>
#include <stdio.h>
#include <stdlib.h>
#include <ucontext.h>

#include "plans.h"
#include "texts.h"

enum { STACK_WORDS = 1 << 17, KINDS = 16, METHODS = PLANNER_SWEEP + 1 };
static const uint64_t patterns[] = {UINT64_C(0xa5c396e17b2d4f08), UINT64_C(0x5a3c691e84d2b0f7)};

static uint8_t sheet[PLANNER_SHEET_BYTES(PLANNER_MOST_ROWS, PLANNER_MOST_VEHICLES, 1)];
static uint8_t plan[PLANNER_PLAN_BYTES(PLANNER_MOST_ROWS)], plan_in[sizeof plan];
static uint8_t bill[PLANNER_BILL_BYTES(PLANNER_MOST_ROWS)], deal[PLANNER_DEAL_BYTES(PLANNER_MOST_ROWS)];
static size_t len;
static struct text text;
static enum { PLANNING, CHECKING, LIMITING, BILLING, DEALING, IMPORTING } asked;
static uint32_t answer;
static uint64_t stack[STACK_WORDS];
static const uint8_t *top;
static ucontext_t caller, callee;

static void call(void)
{
    size_t plan_len = PLANNER_PLAN_BYTES(planner_rows(sheet));
    top = __builtin_frame_address(0);
    if (asked == LIMITING)
        answer = limit_rounds(sheet, len, plan_in, plan_len, 1, plan, plan_len);
    else if (asked == BILLING)
        answer = bill_rounds(sheet, len, plan_in, plan_len, PLANNER_MOST_RATE, PLANNER_MOST_RATE, PLANNER_MOST_RATE, bill,
                             planner_bill_bytes(plan_in));
    else if (asked == DEALING)
        answer = deal_rounds(sheet, len, plan_in, plan_len, PLANNER_MOST_CREWS, deal, planner_deal_bytes(plan_in));
    else if (asked == CHECKING)
        answer = check_sheet(sheet, len, plan_len);
    else if (asked == IMPORTING)
        answer = planner_refusal_in(import_solomon(text.bytes, text.len, sheet, sizeof sheet));
    else
        answer = plan_rounds(sheet, len, plan, plan_len < sizeof plan ? plan_len : sizeof plan);
}

/* The bytes below the frame of `call` that hold the pattern no longer. */
static size_t taken_with(uint64_t pattern)
{
    size_t lowest = 0;
    for (size_t i = 0; i < STACK_WORDS; i++)
        stack[i] = pattern;
    if (getcontext(&callee) != 0)
        exit(2);
    callee.uc_stack.ss_sp = stack;
    callee.uc_stack.ss_size = sizeof stack;
    callee.uc_link = &caller;
    makecontext(&callee, call, 0);
    if (swapcontext(&caller, &callee) != 0)
        exit(2);
    while (stack[lowest] == pattern)
        lowest++;
    return (size_t)(top - (const uint8_t *)&stack[lowest]);
}

/* With one depot and with several, tight rounds and wide ones. */
static void draw_kind(unsigned method, unsigned kind, uint64_t *state)
{
    struct shape shape;
    shape.rows = PLANNER_MOST_ROWS;
    shape.depots = kind % 2 ? 1 : 4;
    shape.vehicles = PLANNER_MOST_VEHICLES;
    shape.method = method;
    shape.time_table = kind / 2 % 2;
    shape.load = kind / 4 % 2 ? 500 : 20;
    shape.hours = kind / 8 % 2 ? 20 : 2;
    len = draw_sheet(sheet, shape, state);
}

static size_t larger(size_t a, size_t b)
{
    return a > b ? a : b;
}

/* By a call on the sheet. */
static size_t taken(void)
{
    return larger(taken_with(patterns[0]), taken_with(patterns[1]));
}

static size_t taken_by(unsigned method)
{
    uint64_t state = UINT64_C(0x9e3779b97f4a7c15);
    size_t most = 0;
    for (unsigned kind = 0; kind < KINDS; kind++) {
        draw_kind(method, kind, &state);
        most = larger(most, taken());
    }
    return most;
}

/* From lone rounds and from a few to one; the kinds of one depot. */
static size_t taken_by_limiter(void)
{
    uint64_t state = UINT64_C(0x9e3779b97f4a7c15);
    size_t most = 0;
    asked = LIMITING;
    for (unsigned kind = 1; kind < KINDS; kind += 2) {
        draw_kind(PLANNER_NEAREST_NEIGHBOR, kind, &state);
        deal_plan(plan_in, sheet, PLANNER_MOST_ROWS - 1, 1, &state);
        most = larger(most, taken());
        deal_plan(plan_in, sheet, 4, 0, &state);
        most = larger(most, taken());
    }
    asked = PLANNING;
    return most;
}

/* By the biller or the dealer, of lone rounds and of a few. */
static size_t taken_by_asked(int deals)
{
    uint64_t state = UINT64_C(0x9e3779b97f4a7c15);
    size_t most = 0;
    asked = deals ? DEALING : BILLING;
    for (unsigned kind = 0; kind < KINDS; kind++) {
        draw_kind(PLANNER_NEAREST_NEIGHBOR, kind, &state);
        deal_plan(plan_in, sheet, PLANNER_MOST_ROWS, 1, &state);
        most = larger(most, taken());
        deal_plan(plan_in, sheet, 4, 0, &state);
        most = larger(most, taken());
    }
    asked = PLANNING;
    return most;
}

static size_t taken_by_check(void)
{
    asked = CHECKING;
    size_t most = taken_by(PLANNER_NEAREST_NEIGHBOR);
    asked = PLANNING;
    return most;
}

static size_t taken_by_importer(void)
{
    uint64_t state = UINT64_C(0x9e3779b97f4a7c15);
    size_t most = 0;
    asked = IMPORTING;
    for (unsigned kind = 0; kind < KINDS; kind++) {
        draw_text(&text, PLANNER_MOST_ROWS, &state);
        most = larger(most, taken());
    }
    asked = PLANNING;
    return most;
}

static size_t taken_by_file(const char *name)
{
    FILE *file = fopen(name, "rb");
    if (file == NULL) {
        perror(name);
        exit(2);
    }
    len = fread(sheet, 1, sizeof sheet, file);
    fclose(file);
    return taken();
}

/* What planner.h says of a plan by a method. */
static size_t allowed(unsigned method)
{
    return method == PLANNER_SAVINGS ? PLANNER_STACK_SAVINGS : PLANNER_STACK;
}

static int tell(const char *what, size_t taken, size_t most)
{
    printf("stack: %s: %zu bytes of %zu", what, taken, most);
    if (answer != PLANNER_ACCEPTED)
        printf(", refused %u", (unsigned)answer);
    printf("%s\n", taken > most ? ", too many" : "");
    return taken > most;
}

int main(int argc, char **argv)
{
    static const char *const names[METHODS] = {"savings", "insertion", "nearest neighbour", "nn_tw", "sweep"};
    int over = 0;
    for (int i = 1; i < argc; i++) {
        size_t taken_here = taken_by_file(argv[i]);
        over |= tell(argv[i], taken_here, allowed(planner_sheet_method(sheet)));
    }
    if (argc > 1)
        return over;
    for (unsigned method = 0; method < METHODS; method++)
        over |= tell(names[method], taken_by(method), allowed(method));
    over |= tell("check", taken_by_check(), PLANNER_STACK);
    over |= tell("limiter", taken_by_limiter(), PLANNER_STACK);
    over |= tell("biller", taken_by_asked(0), PLANNER_STACK);
    over |= tell("dealer", taken_by_asked(1), PLANNER_STACK);
    over |= tell("importer", taken_by_importer(), PLANNER_STACK);
    return over;
}
