/*
 * Lends sheets of every kind, cut short, damaged, random and accepted, with plans of
 * every length, to the limiter, the biller and the dealer plans in and to the importer
 * texts likewise, and holds the answers that are known to what they must be.
 */
#define _GNU_SOURCE
#include <stdint.h>
#include <stdio.h>
#include <stdlib.h>

#include "lend.h"
#include "plans.h"

static unsigned long planned, limited, answered[ANSWER_KINDS], imported;
static const char *lending = "nothing";

static void end(const char *what)
{
    fprintf(stderr, "guard: %s: %s\n", lending, what);
    exit(1);
}

static uint32_t ask(const uint8_t *sheet, size_t len, size_t plan_len)
{
    static uint8_t plan[MOST_PLAN];
    uint32_t answer = ask_with_plan(sheet, len, plan, plan_len);
    planned += answer == PLANNER_ACCEPTED;
    return answer;
}

static void expect_with_plan(const uint8_t *sheet, size_t len, size_t plan_len, uint32_t answer)
{
    uint32_t got = ask(sheet, len, plan_len);
    if (got != answer) {
        fprintf(stderr, "guard: %s: %zu bytes: %u, not %u\n", lending, len, (unsigned)got, (unsigned)answer);
        exit(1);
    }
}

static void expect(const uint8_t *sheet, size_t len, uint32_t answer)
{
    expect_with_plan(sheet, len, plan_len_of(sheet, len), answer);
}

/* Cut after each of its first `most` bytes. */
static void lend_cut(const uint8_t *sheet, size_t most)
{
    for (size_t len = 0; len < most; len++)
        expect_with_plan(sheet, len, PLANNER_PLAN_HEADER_BYTES, len < PLANNER_HEADER_BYTES ? PLANNER_BAD_HEADER : PLANNER_BAD_LENGTH);
}

static void lend_sizes(uint8_t *sheet)
{
    static const unsigned vehicles[] = {0, 1, PLANNER_MOST_VEHICLES};
    for (unsigned rows = 0; rows <= PLANNER_MOST_ROWS; rows++)
        for (unsigned i = 0; i < 3; i++)
            for (unsigned time_table = 0; time_table < 2; time_table++)
                expect(sheet, plain_sheet(sheet, rows, vehicles[i], time_table), PLANNER_ACCEPTED);
}

/* A plan buffer of every length up to one byte too many. */
static void lend_plans(const uint8_t *sheet, size_t len, size_t exact)
{
    for (size_t plan_len = 0; plan_len <= exact + 1; plan_len++)
        expect_with_plan(sheet, len, plan_len, plan_len == exact ? PLANNER_ACCEPTED : PLANNER_BAD_LENGTH);
}

static void lend_damaged(uint8_t *sheet, size_t len)
{
    static const uint8_t damages[] = {0x01, 0x02, 0x40, 0x80, 0xff};
    for (size_t at = 0; at < len; at++)
        for (size_t i = 0; i < sizeof damages; i++) {
            sheet[at] ^= damages[i];
            ask(sheet, len, plan_len_of(sheet, len));
            sheet[at] ^= damages[i];
        }
}

/* A NaN in the last entry is refused, so the check read to the end. */
static void lend_largest(uint8_t *sheet)
{
    size_t len = plain_sheet(sheet, PLANNER_MOST_ROWS, PLANNER_MOST_VEHICLES, 1);
    expect(sheet, len, PLANNER_ACCEPTED);
    sheet[len] = 0;
    expect(sheet, len + 1, PLANNER_BAD_LENGTH);
    sheet[len - 1] = 0x7f;
    sheet[len - 2] = 0xf8;
    expect(sheet, len, PLANNER_BAD_MATRIX);
    expect(sheet, len - 1, PLANNER_BAD_LENGTH);
    lend_cut(sheet, 1000);
}

/* Marks of a vehicle: up to 15, and a rest at home goes with a rest. */
static void lend_marks(uint8_t *sheet)
{
    size_t len = plain_sheet(sheet, 2, 2, 0);
    for (uint32_t marks = 0; marks < 40; marks++) {
        int alone = (marks & (PLANNER_REST | PLANNER_REST_AT_HOME)) == PLANNER_REST_AT_HOME;
        planner_set_vehicle_marks(sheet, 1, marks);
        expect(sheet, len, marks > 15 || alone ? PLANNER_BAD_VEHICLE : PLANNER_ACCEPTED);
    }
}

/* Random bytes, then the same behind a header that passes, so that the rest is read. */
static void lend_random(uint8_t *sheet)
{
    uint64_t state = UINT64_C(0x9e3779b97f4a7c15);
    for (size_t len = 0; len <= 400; len++)
        for (int turn = 0; turn < 8; turn++) {
            for (size_t i = 0; i < len; i++)
                sheet[i] = (uint8_t)(next_random(&state) >> 56);
            ask(sheet, len, plan_len_of(sheet, len));
        }
    for (int turn = 0; turn < 4000; turn++) {
        size_t len = plain_sheet(sheet, below(&state, 12), below(&state, 4), (unsigned)turn % 2);
        size_t from = PLANNER_HEADER_BYTES + (size_t)(next_random(&state) % (len - PLANNER_HEADER_BYTES + 1));
        for (size_t i = from; i < len; i++)
            sheet[i] = (uint8_t)(next_random(&state) >> 56);
        ask(sheet, len, plan_len_of(sheet, len));
    }
}

/* Accepted sheets of one and several depots with every mark. */
static void lend_planned(uint8_t *sheet)
{
    uint64_t state = UINT64_C(0x2545f4914f6cdd1d);
    for (int turn = 0; turn < 6000; turn++) {
        struct shape shape;
        shape.rows = 1 + below(&state, turn % 100 == 0 ? PLANNER_MOST_ROWS : 14);
        shape.depots = 1 + below(&state, shape.rows < 4 ? shape.rows : 4);
        shape.method = below(&state, 5);
        shape.time_table = below(&state, 2);
        shape.vehicles = (unsigned)needs_vehicle(shape.method) + below(&state, 6);
        shape.load = 15;
        shape.hours = 1;
        expect(sheet, draw_sheet(sheet, shape, &state), PLANNER_ACCEPTED);
    }
}

static uint32_t limit(struct limiting l)
{
    static uint8_t plan_out[MOST_PLAN];
    uint32_t answer = ask_limiter(l, plan_out);
    limited += answer == PLANNER_ACCEPTED;
    return answer;
}

static void expect_limit(struct limiting l, uint32_t answer)
{
    uint32_t got = limit(l);
    if (got != answer) {
        fprintf(stderr, "guard: %s: a plan in of %zu bytes, greatest %u: %u, not %u\n", lending, l.plan_in_len,
                (unsigned)l.greatest, (unsigned)got, (unsigned)answer);
        exit(1);
    }
}

/* A sheet with a plan in, of their exact lengths. */
static struct limiting with_plan(const uint8_t *sheet, size_t len, const uint8_t *plan_in, uint32_t greatest)
{
    struct limiting l;
    l.sheet = sheet;
    l.plan_in = plan_in;
    l.len = len;
    l.plan_in_len = l.plan_out_len = plan_len_of(sheet, len);
    l.greatest = greatest;
    return l;
}

/* Plans of every length up to one byte too many, in and out. */
static void limit_plans(struct limiting l)
{
    size_t exact = l.plan_in_len;
    for (size_t len = 0; len <= exact + 1; len++) {
        uint32_t answer = len == exact ? PLANNER_ACCEPTED : PLANNER_BAD_LENGTH;
        l.plan_in_len = len;
        l.plan_out_len = exact;
        expect_limit(l, answer);
        l.plan_in_len = exact;
        l.plan_out_len = len;
        expect_limit(l, answer);
        l.plan_in_len = len;
        expect_limit(l, answer);
    }
}

static void limit_cut(struct limiting l)
{
    for (size_t len = l.len; len > 0; len--) {
        l.len = len - 1;
        expect_limit(l, l.len < PLANNER_HEADER_BYTES ? PLANNER_BAD_HEADER : PLANNER_BAD_LENGTH);
    }
}

/* Links far out of the plan among them. */
static void limit_damaged(struct limiting l, uint8_t *plan_in)
{
    static const uint8_t damages[] = {0x01, 0x02, 0x40, 0x80, 0xff};
    for (size_t at = 0; at < l.plan_in_len; at++)
        for (size_t i = 0; i < sizeof damages; i++) {
            plan_in[at] ^= damages[i];
            limit(l);
            plan_in[at] ^= damages[i];
        }
}

/* Lone rounds, or all set aside where there is no vehicle, within half of them. */
static void limit_sizes(uint8_t *sheet, uint8_t *plan_in, uint64_t *state)
{
    for (unsigned rows = 0; rows <= PLANNER_MOST_ROWS; rows++)
        for (unsigned vehicles = 0; vehicles < 2; vehicles++) {
            size_t len = plain_sheet(sheet, rows, vehicles, rows % 2);
            deal_plan(plan_in, sheet, rows > 0 ? rows - 1 : 0, 1, state);
            expect_limit(with_plan(sheet, len, plan_in, rows / 2), PLANNER_ACCEPTED);
        }
}

/* Random bytes as plans in; most have more rounds than rows, so some are given fewer. */
static void limit_random(uint8_t *sheet, uint8_t *plan_in, uint64_t *state)
{
    for (int turn = 0; turn < 4000; turn++) {
        unsigned rows = below(state, 12);
        size_t len = plain_sheet(sheet, rows, 1 + below(state, 3), 0);
        for (size_t i = 0; i < PLANNER_PLAN_BYTES(rows); i++)
            plan_in[i] = (uint8_t)(next_random(state) >> 56);
        if (turn % 2)
            planner_set_plan_rounds(plan_in, below(state, rows + 1));
        limit(with_plan(sheet, len, plan_in, below(state, 4)));
    }
}

/* Plans dealt for accepted sheets with every mark, of which those of several depots are refused. */
static void limit_dealt(uint8_t *sheet, uint8_t *plan_in, uint64_t *state)
{
    for (int turn = 0; turn < 6000; turn++) {
        struct shape shape = {1 + below(state, turn % 100 == 0 ? PLANNER_MOST_ROWS : 14), 1, 1 + below(state, 5),
                              below(state, 5), below(state, 2), 15, 1};
        shape.depots = turn % 20 == 0 && shape.rows > 1 ? 2 : 1;
        size_t len = draw_sheet(sheet, shape, state);
        deal_plan(plan_in, sheet, below(state, shape.rows + 1), turn % 4 == 0, state);
        expect_limit(with_plan(sheet, len, plan_in, below(state, shape.rows + 1)),
                     shape.depots > 1 ? PLANNER_SEVERAL_DEPOTS : PLANNER_ACCEPTED);
    }
}

static void lend_to_limiter(uint8_t *sheet)
{
    static uint8_t plan_in[MOST_PLAN];
    uint64_t state = UINT64_C(0x9e3779b97f4a7c15);
    size_t len = plain_sheet(sheet, 4, 2, 1);
    deal_plan(plan_in, sheet, 3, 1, &state);
    struct limiting l = with_plan(sheet, len, plan_in, 1);
    lending = "plans of every length, to the limiter";
    limit_plans(l);
    lending = "a sheet cut short, to the limiter";
    limit_cut(l);
    lending = "a plan in with a damaged byte";
    limit_damaged(l, plan_in);
    lending = "plans in of every number of rows";
    limit_sizes(sheet, plan_in, &state);
    lending = "random plans in";
    limit_random(sheet, plan_in, &state);
    lending = "plans dealt at random";
    limit_dealt(sheet, plan_in, &state);
}

static uint32_t ask_plan(struct asking a)
{
    static uint8_t out[MOST_OUT];
    uint32_t answer = ask_about_plan(&a, out);
    answered[a.kind] += answer == PLANNER_ACCEPTED;
    return answer;
}

static void expect_of(struct asking a, uint32_t answer)
{
    uint32_t got = ask_plan(a);
    if (got != answer) {
        fprintf(stderr, "guard: %s: a plan of %zu bytes, a %s of %zu: %u, not %u\n", lending, a.plan_len,
                a.kind == DEAL ? "deal" : "bill", a.out_len, (unsigned)got, (unsigned)answer);
        exit(1);
    }
}

/* A sheet with a plan of it and the answer's buffer, of their exact lengths. */
static struct asking asking_of(enum answer_kind kind, const uint8_t *sheet, size_t len, const uint8_t *plan)
{
    struct asking a = {kind, sheet, plan, len, plan_len_of(sheet, len), out_bytes(kind, planner_plan_rounds(plan)), 7, 11, 20, 2};
    return a;
}

/* Plans and buffers of every length, up to some more than a charge too many. */
static void ask_lengths(struct asking a)
{
    size_t exact = a.plan_len, exact_out = a.out_len;
    for (size_t len = 0; len <= exact + 1; len++) {
        a.plan_len = len;
        expect_of(a, len == exact ? PLANNER_ACCEPTED : PLANNER_BAD_LENGTH);
    }
    a.plan_len = exact;
    for (size_t len = 0; len <= exact_out + PLANNER_CHARGE_BYTES + 1; len++) {
        a.out_len = len;
        expect_of(a, len == exact_out ? PLANNER_ACCEPTED : PLANNER_BAD_LENGTH);
    }
}

static void ask_cut(struct asking a)
{
    for (size_t len = a.len; len > 0; len--) {
        a.len = len - 1;
        expect_of(a, a.len < PLANNER_HEADER_BYTES ? PLANNER_BAD_HEADER : PLANNER_BAD_LENGTH);
    }
}

/* With a buffer for the rounds that the damaged plan says, as far as there is room, and for those that it had. */
static void ask_damaged(struct asking a, uint8_t *plan)
{
    static const uint8_t damages[] = {0x01, 0x02, 0x40, 0x80, 0xff};
    size_t exact = a.out_len;
    for (size_t at = 0; at < a.plan_len; at++)
        for (size_t i = 0; i < sizeof damages; i++) {
            plan[at] ^= damages[i];
            a.out_len = exact;
            ask_plan(a);
            a.out_len = out_bytes(a.kind, planner_plan_rounds(plan));
            a.out_len = a.out_len < MOST_OUT ? a.out_len : MOST_OUT;
            ask_plan(a);
            plan[at] ^= damages[i];
        }
}

/* Numbers of rounds above the rows. Of the greatest the buffer is lent without closed pages: no byte of it changes. */
static void ask_counts(struct asking a, uint8_t *plan)
{
    static uint8_t longest[PLANNER_BILL_BYTES(UINT16_MAX)];
    unsigned rounds = planner_plan_rounds(plan), rows = planner_rows(a.sheet);
    for (unsigned count = rows + 1; PLANNER_BILL_BYTES(count) <= MOST_OUT; count++) {
        planner_set_plan_rounds(plan, count);
        a.out_len = out_bytes(a.kind, rounds);
        expect_of(a, PLANNER_BAD_LENGTH);
        a.out_len = out_bytes(a.kind, count);
        expect_of(a, PLANNER_BAD_PLAN);
    }
    planner_set_plan_rounds(plan, UINT16_MAX);
    a.out_len = out_bytes(a.kind, UINT16_MAX);
    if (ask_of(&a, a.sheet, plan, longest) != PLANNER_BAD_PLAN || !all_are(longest, sizeof longest, 0))
        end("65,535 rounds are not refused as they should be");
    planner_set_plan_rounds(plan, rounds);
}

/* What is asked out of range, alone and where something else is wrong, which is told before it. */
static void expect_own_refusal(struct asking a, uint8_t *sheet, uint8_t *plan)
{
    unsigned aside = planner_plan_aside(plan);
    expect_of(a, own_refusal(a.kind));
    planner_set_plan_aside(plan, UINT16_MAX);
    expect_of(a, PLANNER_BAD_PLAN);
    planner_set_row_demand(sheet, 0, -1);
    expect_of(a, PLANNER_BAD_ROW);
    a.out_len++;
    expect_of(a, PLANNER_BAD_LENGTH);
    planner_set_row_demand(sheet, 0, 0);
    planner_set_plan_aside(plan, aside);
}

/* Each rate at its most and above. */
static void bill_rates(struct asking b, uint8_t *sheet, uint8_t *plan)
{
    static const uint32_t above[] = {PLANNER_MOST_RATE + 1, UINT32_C(0x7fffffff), UINT32_C(0x80000000), UINT32_MAX};
    uint32_t *const rates[] = {&b.distance_rate, &b.duration_rate, &b.least};
    for (unsigned i = 0; i < 3; i++) {
        uint32_t had = *rates[i];
        *rates[i] = PLANNER_MOST_RATE;
        expect_of(b, PLANNER_ACCEPTED);
        for (unsigned k = 0; k < sizeof above / sizeof above[0]; k++) {
            *rates[i] = above[k];
            expect_own_refusal(b, sheet, plan);
        }
        *rates[i] = had;
    }
}

/* Each number of crews, and those out of range, with the rounds of the plan and with none. */
static void deal_crews(struct asking d, uint8_t *sheet, uint8_t *plan)
{
    static const uint32_t beyond[] = {0, 9, 10, 255, 256, 257, 264, 65536, 65537, UINT32_C(0x80000001), UINT32_MAX};
    for (d.crews = 1; d.crews <= PLANNER_MOST_CREWS; d.crews++)
        expect_of(d, PLANNER_ACCEPTED);
    for (unsigned k = 0; k < sizeof beyond / sizeof beyond[0]; k++) {
        d.crews = beyond[k];
        expect_own_refusal(d, sheet, plan);
    }
    uint64_t state = UINT64_C(0x9e3779b97f4a7c15);
    deal_plan(plan, sheet, 0, 0, &state);
    d.out_len = 0;
    for (unsigned k = 0; k < sizeof beyond / sizeof beyond[0]; k++) {
        d.crews = beyond[k];
        expect_own_refusal(d, sheet, plan);
    }
    d.crews = PLANNER_MOST_CREWS;
    expect_of(d, PLANNER_ACCEPTED);
}

/* Lone rounds, or all set aside where there is no vehicle. */
static void ask_sizes(enum answer_kind kind, uint8_t *sheet, uint8_t *plan, uint64_t *state)
{
    for (unsigned rows = 0; rows <= PLANNER_MOST_ROWS; rows++)
        for (unsigned vehicles = 0; vehicles < 2; vehicles++) {
            size_t len = plain_sheet(sheet, rows, vehicles, rows % 2);
            deal_plan(plan, sheet, rows, 1, state);
            expect_of(asking_of(kind, sheet, len, plan), PLANNER_ACCEPTED);
        }
}

/* Plans dealt for accepted sheets with every mark, of one depot and of several. */
static void ask_dealt(enum answer_kind kind, uint8_t *sheet, uint8_t *plan, uint64_t *state)
{
    for (int turn = 0; turn < 6000; turn++) {
        struct shape shape = {1 + below(state, turn % 100 == 0 ? PLANNER_MOST_ROWS : 14), 1, 1 + below(state, 5),
                              below(state, 5), below(state, 2), 15, 1 + below(state, 40)};
        shape.depots = 1 + below(state, shape.rows < 4 ? shape.rows : 4);
        size_t len = draw_sheet(sheet, shape, state);
        deal_plan(plan, sheet, below(state, shape.rows + 1), turn % 4 == 0, state);
        struct asking a = asking_of(kind, sheet, len, plan);
        a.distance_rate = below(state, PLANNER_MOST_RATE + 1);
        a.duration_rate = below(state, PLANNER_MOST_RATE + 1);
        a.least = below(state, PLANNER_MOST_RATE + 1);
        a.crews = 1 + below(state, PLANNER_MOST_CREWS);
        expect_of(a, PLANNER_ACCEPTED);
    }
}

static void lend_to_asked(enum answer_kind kind, uint8_t *sheet)
{
    static uint8_t plan[MOST_PLAN];
    uint64_t state = UINT64_C(0x9e3779b97f4a7c15);
    int deals = kind == DEAL;
    size_t len = plain_sheet(sheet, 4, 2, 1);
    deal_plan(plan, sheet, 3, 1, &state);
    struct asking a = asking_of(kind, sheet, len, plan);
    lending = deals ? "plans and deals of every length" : "plans and bills of every length";
    ask_lengths(a);
    lending = deals ? "a sheet cut short, to the dealer" : "a sheet cut short, to the biller";
    ask_cut(a);
    lending = deals ? "a plan with a damaged byte, to the dealer" : "a plan with a damaged byte, to the biller";
    ask_damaged(a, plan);
    lending = deals ? "more rounds than rows, to the dealer" : "more rounds than rows, to the biller";
    ask_counts(a, plan);
    lending = deals ? "crews" : "rates";
    (deals ? deal_crews : bill_rates)(a, sheet, plan);
    lending = deals ? "deals of every number of rounds" : "bills of every number of rounds";
    ask_sizes(kind, sheet, plan, &state);
    lending = deals ? "plans dealt at random, to the dealer" : "plans dealt at random, to the biller";
    ask_dealt(kind, sheet, plan, &state);
}

/* Reasons of each row: those of stops set aside are up to 8, and no other is read. */
static void lend_reasons(uint8_t *sheet)
{
    static const unsigned reasons[] = {0, 1, 7, 8, 9, 10, 255, 256, 264, 0x7fff, 0x8000, UINT16_MAX};
    static uint8_t plan[MOST_PLAN];
    uint64_t state = UINT64_C(0x9e3779b97f4a7c15);
    unsigned rows = 5;
    size_t len = plain_sheet(sheet, rows, 2, 0);
    lending = "reasons";
    for (unsigned row = 0; row < rows; row++) {
        deal_plan(plan, sheet, 2, 1, &state);
        unsigned aside = planner_plan_aside(plan);
        uint64_t last = planner_get(stop_of(plan, rows, aside) + PLANNER_STOP_NEXT, 2);
        for (unsigned i = 0; i < sizeof reasons / sizeof reasons[0]; i++) {
            int is_none = reasons[i] > PLANNER_ASIDE_LIMITED && (row == aside || row == last);
            planner_put(stop_of(plan, rows, row) + PLANNER_STOP_REASON, 2, reasons[i]);
            expect_limit(with_plan(sheet, len, plan, 1), is_none ? PLANNER_BAD_PLAN : PLANNER_ACCEPTED);
            for (enum answer_kind kind = BILL; kind < ANSWER_KINDS; kind++) {
                struct asking a = asking_of(kind, sheet, len, plan);
                expect_of(a, is_none ? PLANNER_BAD_PLAN : PLANNER_ACCEPTED);
                a.least = PLANNER_MOST_RATE + 1;
                a.crews = PLANNER_MOST_CREWS + 1;
                expect_of(a, is_none ? PLANNER_BAD_PLAN : own_refusal(kind));
            }
        }
    }
}

static int32_t import(const struct text *t, size_t sheet_len)
{
    static uint8_t sheet[MOST_IMPORT];
    int32_t answer = ask_importer(t, sheet, sheet_len);
    imported += answer > 0;
    return answer;
}

static void expect_import(const struct text *t, size_t sheet_len, int32_t answer)
{
    int32_t got = import(t, sheet_len);
    if (got != answer) {
        fprintf(stderr, "guard: %s: a text of %zu bytes, a buffer of %zu: %d, not %d\n", lending, t->len, sheet_len, (int)got,
                (int)answer);
        exit(1);
    }
}

/* The answer to a text of so many rows, with a buffer that is long enough. */
static int32_t length_of(unsigned rows)
{
    return rows == 0 ? -PLANNER_BAD_TEXT
           : rows > PLANNER_MOST_ROWS ? -PLANNER_TOO_MANY_CUSTOMERS
                                      : (int32_t)PLANNER_IMPORT_BYTES(rows);
}

/* A text without a digit in its name, cut after each of its bytes: from its seventh number on a line is a row, but with a
   CR that no LF follows. */
static void import_cut(struct text *t)
{
    size_t len = t->len;
    unsigned rows = 0, numbers = 0;
    int in_number = 0;
    for (t->len = 0; t->len < len; t->len++) {
        int part = numbers > 0 && (numbers < 7 || t->bytes[t->len - 1] == '\r');
        expect_import(t, MOST_IMPORT, part ? -PLANNER_BAD_TEXT : length_of(rows + (numbers == 7)));
        uint8_t next = t->bytes[t->len];
        numbers += is_digit(next) && !in_number;
        in_number = is_digit(next);
        if (next == '\n') {
            rows += numbers == 7;
            numbers = 0;
        }
    }
    expect_import(t, MOST_IMPORT, length_of(rows));
}

/* A buffer of every length, up to some more than the sheet's. */
static void import_lengths(const struct text *t, size_t exact)
{
    for (size_t len = 0; len <= exact + 64; len++)
        expect_import(t, len, len < exact ? -PLANNER_BAD_LENGTH : (int32_t)exact);
}

static void import_damaged(struct text *t)
{
    static const uint8_t damages[] = {0x01, 0x02, 0x10, 0x1d, 0x80, 0xff};
    for (size_t at = 0; at < t->len; at++)
        for (size_t i = 0; i < sizeof damages; i++) {
            t->bytes[at] ^= damages[i];
            import(t, MOST_IMPORT);
            t->bytes[at] ^= damages[i];
        }
}

/* With the sheet's exact length, and with a byte less. */
static void import_sizes(struct text *t, uint64_t *state)
{
    for (unsigned rows = 0; rows <= PLANNER_MOST_ROWS + 3; rows++) {
        int32_t answer = length_of(rows);
        draw_text(t, rows, state);
        expect_import(t, answer > 0 ? (size_t)answer : 0, answer);
        expect_import(t, answer > 0 ? (size_t)answer - 1 : 0, answer > 0 ? -PLANNER_BAD_LENGTH : answer);
    }
}

/* Of the bytes that texts have, and of any. */
static void import_random(struct text *t, uint64_t *state)
{
    static const char letters[] = "\n\n\n\r \t-0123456789.x";
    for (int turn = 0; turn < 4000; turn++) {
        t->len = below(state, 400);
        for (size_t i = 0; i < t->len; i++)
            t->bytes[i] = (uint8_t)(turn % 4 == 0 ? next_random(state) >> 56 : (uint8_t)letters[below(state, sizeof letters - 1)]);
        import(t, turn % 2 ? MOST_IMPORT : 0);
    }
}

static void lend_to_importer(void)
{
    static struct text t;
    uint64_t state = UINT64_C(0x9e3779b97f4a7c15);
    add_words(&t, "WORKS\r\n\nVEHICLE\nNUMBER CAPACITY\n 25\t200 \n-\n"
                  " 0 40 50 0 0 1230 0\r\n\n\r\n1\t-3 -04 10 90 150 30\n  2 3 4 0 0 0 0 \n");
    lending = "a text cut short";
    import_cut(&t);
    lending = "a text with buffers of every length";
    import_lengths(&t, PLANNER_IMPORT_BYTES(3));
    lending = "a text with a damaged byte";
    import_damaged(&t);
    lending = "texts of every number of rows";
    import_sizes(&t, &state);
    lending = "random texts";
    import_random(&t, &state);
}

int main(void)
{
    static uint8_t sheet[MOST_SHEET];
    open_places();

    lending = "a small sheet";
    size_t len = plain_sheet(sheet, 3, 2, 1);
    expect(sheet, len, PLANNER_ACCEPTED);
    lending = "a small sheet with plans of every length";
    lend_plans(sheet, len, PLANNER_PLAN_BYTES(3));
    lending = "a small sheet cut short";
    lend_cut(sheet, len);
    lending = "a small sheet with a damaged byte";
    lend_damaged(sheet, len);
    lending = "sheets of every number of rows";
    lend_sizes(sheet);
    lending = "the largest sheet";
    lend_largest(sheet);
    lending = "every sum of a vehicle's marks";
    lend_marks(sheet);
    lending = "random bytes";
    lend_random(sheet);
    lending = "accepted sheets";
    lend_planned(sheet);
    lend_to_limiter(sheet);
    lend_to_asked(BILL, sheet);
    lend_to_asked(DEAL, sheet);
    lend_reasons(sheet);
    lend_to_importer();
    printf("guard: %lu calls, %lu sheets planned, %lu plans limited, %lu billed, %lu dealt to crews and %lu texts imported at both ends\n",
           calls, planned, limited, answered[BILL], answered[DEAL], imported);
    return 0;
}
