/*
 * A host in C: builds sheet A (docs/SCOPE.md), has it planned and its plans limited, billed
 * and dealt to crews, prints the rounds and why a stop is set aside in plain words, then
 * damages it in the way of each refusal's example. At the end it imports a text, has its
 * sheet planned, and damages that.
 */
#include <inttypes.h>
#include <stdint.h>
#include <stdio.h>
#include <string.h>

#include "planner_fields.h"

enum { ROWS = 3, VEHICLES = 1, IMPORT_BYTES = PLANNER_IMPORT_BYTES(ROWS) };

/* A sheet with room for one byte too many. */
struct sheet {
    uint8_t bytes[PLANNER_SHEET_BYTES(ROWS, VEHICLES, 0) + 1];
    size_t len;
};

/* Both ways. */
static void set_legs(struct sheet *s, unsigned a, unsigned b, double distance)
{
    planner_set_distance(s->bytes, a, b, distance);
    planner_set_distance(s->bytes, b, a, distance);
}

static struct sheet sheet_a(void)
{
    struct sheet s;
    memset(&s, 0, sizeof s);
    s.len = PLANNER_SHEET_BYTES(ROWS, VEHICLES, 0);
    planner_set_rows(s.bytes, ROWS);
    planner_set_vehicles(s.bytes, VEHICLES);
    planner_set_sheet_method(s.bytes, PLANNER_SAVINGS);
    planner_set_row_marks(s.bytes, 0, PLANNER_DEPOT);
    planner_set_row_y(s.bytes, 1, 10);
    planner_set_row_demand(s.bytes, 1, 1);
    planner_set_row_y(s.bytes, 2, -10);
    planner_set_row_demand(s.bytes, 2, 1);
    planner_set_vehicle_id(s.bytes, 0, 7);
    planner_set_vehicle_capacity(s.bytes, 0, 2);
    planner_set_vehicle_cost_per_distance(s.bytes, 0, 1.0);
    set_legs(&s, 0, 1, 10.0);
    set_legs(&s, 0, 2, 10.0);
    set_legs(&s, 1, 2, 4.0);
    return s;
}

/* Sheet A without its vehicle: the distances move up. */
static struct sheet without_vehicle(unsigned method)
{
    struct sheet s = sheet_a();
    uint8_t *vehicle = s.bytes + planner_vehicle_at(s.bytes, 0);
    memmove(vehicle, vehicle + PLANNER_VEHICLE_BYTES, PLANNER_LEG_BYTES * ROWS * ROWS);
    s.len -= PLANNER_VEHICLE_BYTES;
    planner_set_vehicles(s.bytes, 0);
    planner_set_sheet_method(s.bytes, method);
    return s;
}

static const char *words(uint32_t answer)
{
    switch (answer) {
    case PLANNER_ACCEPTED: return "accepted";
    case PLANNER_BAD_HEADER: return "refused 1, no header";
    case PLANNER_TOO_MANY: return "refused 2, too many rows or vehicles";
    case PLANNER_BAD_METHOD: return "refused 3, no such method";
    case PLANNER_BAD_LENGTH: return "refused 4, a wrong length";
    case PLANNER_BAD_ROW: return "refused 5, a row out of range";
    case PLANNER_BAD_MATRIX: return "refused 6, a distance or time out of range";
    case PLANNER_BAD_VEHICLE: return "refused 7, a vehicle out of range";
    case PLANNER_NO_VEHICLE: return "refused 8, no vehicle";
    case PLANNER_SEVERAL_DEPOTS: return "refused 9, several depots";
    case PLANNER_BAD_PLAN: return "refused 10, no plan of this sheet";
    case PLANNER_BAD_TEXT: return "refused 11, no text of this form";
    case PLANNER_TOO_MANY_CUSTOMERS: return "refused 12, too many customers";
    case PLANNER_BAD_RATE: return "refused 13, a rate or the least charge too high";
    case PLANNER_BAD_CREWS: return "refused 14, no crew or too many";
    }
    return "an answer that is no refusal";
}

/* Asks with a plan of the exact length for ROWS rows and so many bytes more. */
static void ask_with_plan(const char *what, const struct sheet *s, size_t more)
{
    uint32_t answer = check_sheet(s->bytes, s->len, PLANNER_PLAN_BYTES(ROWS) + more);
    printf("%s: %s\n", what, words(answer));
}

static void ask(const char *what, const struct sheet *s)
{
    ask_with_plan(what, s, 0);
}

static void print_round(const uint8_t *plan, unsigned k)
{
    unsigned place = 1;
    printf("  round %u, vehicle %u: load %d, distance %g, duration %g\n", k + 1, (unsigned)planner_round_id(plan, k),
           (int)planner_round_load(plan, k), planner_round_distance(plan, k), planner_round_duration(plan, k));
    for (unsigned stop = planner_round_first(plan, k); stop != 0; stop = planner_stop_next(plan, stop)) {
        if (place++ == planner_round_rest_place(plan, k))
            printf("    rest at %g\n", planner_round_rest_start(plan, k));
        printf("    stop %u: arrives at %g, leaves at %g with %d\n", stop, planner_stop_arrival(plan, stop),
               planner_stop_departure(plan, stop), (int)planner_stop_load(plan, stop));
    }
    if (place == planner_round_rest_place(plan, k))
        printf("    rest at the depot at %g\n", planner_round_rest_start(plan, k));
}

static void print_plan(const uint8_t *plan)
{
    unsigned rounds = planner_plan_rounds(plan);
    printf("  %u round%s, cost %g\n", rounds, rounds == 1 ? "" : "s", planner_plan_cost(plan));
    for (unsigned k = 0; k < rounds; k++)
        print_round(plan, k);
    for (unsigned stop = planner_plan_aside(plan); stop != 0; stop = planner_stop_next(plan, stop))
        printf("    stop %u is set aside: %s\n", stop, planner_reason_text(planner_stop_reason(plan, stop)));
}

struct plan {
    uint8_t bytes[PLANNER_PLAN_BYTES(ROWS)];
};

/* What a buffer holds before a call, and after one that is refused. */
enum { UNTOUCHED = 0xa5 };

static struct plan untouched(void)
{
    struct plan plan;
    memset(plan.bytes, UNTOUCHED, sizeof plan.bytes);
    return plan;
}

static void print_changed(const uint8_t *bytes, size_t len)
{
    for (size_t i = 0; i < len; i++)
        if (bytes[i] != UNTOUCHED)
            printf("  byte %zu was changed\n", i);
}

static void print_answer(const char *what, uint32_t answer, const struct plan *plan)
{
    printf("%s: %s\n", what, words(answer));
    if (answer == PLANNER_ACCEPTED)
        print_plan(plan->bytes);
    else
        print_changed(plan->bytes, sizeof plan->bytes);
}

static struct plan plan_it(const char *what, const struct sheet *s)
{
    struct plan plan = untouched();
    print_answer(what, plan_rounds(s->bytes, s->len, plan.bytes, sizeof plan.bytes), &plan);
    return plan;
}

static void limit_it(const char *what, const struct sheet *s, const struct plan *in, uint32_t greatest)
{
    struct plan out = untouched();
    uint32_t answer = limit_rounds(s->bytes, s->len, in->bytes, sizeof in->bytes, greatest, out.bytes, sizeof out.bytes);
    print_answer(what, answer, &out);
}

struct tariff {
    uint32_t distance_rate, duration_rate, least;
};

/* Into a buffer of the bill's length and so many bytes more. */
static void bill_it(const char *what, const struct sheet *s, const struct plan *plan, struct tariff t, size_t more)
{
    uint8_t bill[PLANNER_BILL_BYTES(ROWS) + 1];
    unsigned rounds = planner_plan_rounds(plan->bytes);
    memset(bill, UNTOUCHED, sizeof bill);
    uint32_t answer = bill_rounds(s->bytes, s->len, plan->bytes, sizeof plan->bytes, t.distance_rate, t.duration_rate, t.least,
                                  bill, planner_bill_bytes(plan->bytes) + more);
    printf("%s: %s\n", what, words(answer));
    if (answer != PLANNER_ACCEPTED) {
        print_changed(bill, sizeof bill);
        return;
    }
    for (unsigned k = 0; k < rounds; k++)
        printf("  round %u: %" PRIu64 " cents\n", k + 1, planner_bill_charge(bill, k));
    printf("  in all: %" PRIu64 " cents\n", planner_bill_sum(bill, rounds));
}

/* A round at the end of a unit and past it, an empty one, one of two depots; and what is refused. */
static void bill_sheet_a(void)
{
    const struct tariff rates = {7, 11, 0}, with_least = {7, 11, 20}, too_high = {7, 11, PLANNER_MOST_RATE + 1};
    struct sheet s = sheet_a();
    struct plan plan = plan_it("sheet A, savings", &s);
    bill_it("its bill, 7 a begun 1,000 and 11 a begun 900", &s, &plan, rates, 0);
    bill_it("its bill, the least charge 20", &s, &plan, with_least, 0);
    bill_it("its bill, one byte too many", &s, &plan, rates, 1);
    bill_it("its bill, the least charge 1,000,001", &s, &plan, too_high, 0);
    planner_set_distance(s.bytes, 2, 0, 986.0);
    bill_it("its bill, distance and duration 1000", &s, &plan, rates, 0);
    planner_set_distance(s.bytes, 2, 0, 986.5);
    bill_it("its bill, distance and duration 1000.5", &s, &plan, rates, 0);
    planner_set_plan_rounds(plan.bytes, 2);
    planner_set_round_id(plan.bytes, 1, 7);
    bill_it("its bill with an empty round more, the least charge 20", &s, &plan, with_least, 0);
    planner_set_stop_next(plan.bytes, 2, 2);
    bill_it("its bill, next of 2 is 2, the least charge 1,000,001", &s, &plan, too_high, 0);

    s = sheet_a();
    planner_set_row_marks(s.bytes, 1, PLANNER_DEPOT);
    plan = plan_it("sheet A with 2 depots, savings", &s);
    bill_it("its bill, 7 a begun 1,000 and 11 a begun 900", &s, &plan, rates, 0);
}

/* To so many crews, into a buffer of the deal's length and so many bytes more. */
static void deal_it(const char *what, const struct sheet *s, const struct plan *plan, uint32_t crews, size_t more)
{
    uint8_t deal[PLANNER_DEAL_BYTES(ROWS) + 1];
    memset(deal, UNTOUCHED, sizeof deal);
    uint32_t answer = deal_rounds(s->bytes, s->len, plan->bytes, sizeof plan->bytes, crews, deal,
                                  planner_deal_bytes(plan->bytes) + more);
    printf("%s: %s\n", what, words(answer));
    if (answer != PLANNER_ACCEPTED) {
        print_changed(deal, sizeof deal);
        return;
    }
    for (unsigned k = 0; k < planner_plan_rounds(plan->bytes); k++)
        printf("  round %u goes to crew %u\n", k + 1, planner_deal_crew(deal, k));
}

/* Rounds as long as each other, one a little longer and an empty one that is longer still; one of two depots; and what is
   refused. */
static void deal_sheet_a(void)
{
    struct sheet s = sheet_a();
    planner_set_vehicle_capacity(s.bytes, 0, 0);
    struct plan plan = plan_it("sheet A, savings, capacity 0", &s);
    deal_it("its rounds dealt to two crews", &s, &plan, 2, 0);
    deal_it("its rounds dealt to one crew", &s, &plan, 1, 0);
    planner_set_distance(s.bytes, 2, 0, 10.5);
    deal_it("the same to two crews, stop 2 10.5 from home", &s, &plan, 2, 0);
    planner_set_distance(s.bytes, 1, 0, 10.25);
    deal_it("the same, stop 1 10.25 from home", &s, &plan, 2, 0);
    planner_set_plan_rounds(plan.bytes, 3);
    planner_set_round_id(plan.bytes, 2, 7);
    deal_it("the same with an empty round more", &s, &plan, 2, 0);
    planner_set_distance(s.bytes, 0, 0, 30.0);
    deal_it("the same, 30 from the depot to itself", &s, &plan, 2, 0);
    deal_it("the same, one byte too many", &s, &plan, 2, 1);
    deal_it("the same to no crew", &s, &plan, 0, 0);
    deal_it("the same to 9 crews", &s, &plan, PLANNER_MOST_CREWS + 1, 0);
    planner_set_stop_next(plan.bytes, 2, 2);
    deal_it("the same, next of 2 is 2, to no crew", &s, &plan, 0, 0);
    planner_set_stop_next(plan.bytes, 2, 0);
    planner_set_plan_rounds(plan.bytes, ROWS + 1);
    deal_it("the same, 4 rounds", &s, &plan, 2, 0);

    s = sheet_a();
    planner_set_row_marks(s.bytes, 1, PLANNER_DEPOT);
    plan = plan_it("sheet A with 2 depots, savings", &s);
    deal_it("its round dealt to 8 crews", &s, &plan, PLANNER_MOST_CREWS, 0);
}

/* Each reason of a stop set aside; reasons copied, and one that is none, which is read of stops set aside alone. */
static void set_aside(void)
{
    const struct tariff rates = {7, 11, 0};
    struct sheet s = without_vehicle(PLANNER_NEAREST_NEIGHBOR);
    plan_it("sheet A, nearest neighbour, 0 vehicles", &s);

    s = sheet_a();
    planner_set_sheet_method(s.bytes, PLANNER_INSERTION);
    planner_set_row_marks(s.bytes, 1, PLANNER_WINDOW);
    planner_set_row_due(s.bytes, 1, 9.0);
    plan_it("sheet A, insertion, stop 1 due 9", &s);
    planner_set_row_due(s.bytes, 1, 14.0);
    planner_set_vehicle_marks(s.bytes, 0, PLANNER_REST);
    planner_set_vehicle_earliest(s.bytes, 0, 12.0);
    planner_set_vehicle_latest(s.bytes, 0, 15.0);
    planner_set_vehicle_rest_duration(s.bytes, 0, 5.0);
    plan_it("sheet A, insertion, stop 1 due 14, a rest of 5 from 12 to 15", &s);

    s = sheet_a();
    planner_set_vehicle_marks(s.bytes, 0, PLANNER_MAX_DISTANCE);
    planner_set_vehicle_max_distance(s.bytes, 0, 19.0);
    plan_it("sheet A, savings, distance at most 19", &s);
    planner_set_vehicle_marks(s.bytes, 0, PLANNER_MAX_DURATION);
    planner_set_vehicle_max_distance(s.bytes, 0, 0.0);
    planner_set_vehicle_max_duration(s.bytes, 0, 19.0);
    plan_it("sheet A, savings, duration at most 19", &s);

    s = sheet_a();
    planner_set_sheet_method(s.bytes, PLANNER_NN_TW);
    planner_set_vehicle_capacity(s.bytes, 0, 1);
    struct plan plan = plan_it("sheet A, nn_tw, capacity 1", &s);
    limit_it("its plan within 0 rounds", &s, &plan, 0);
    planner_set_stop_reason(plan.bytes, 2, PLANNER_ASIDE_UNTOLD);
    limit_it("its plan within 0 rounds, stop 2 without a reason", &s, &plan, 0);
    planner_set_stop_reason(plan.bytes, 1, PLANNER_ASIDE_LIMITED + 1);
    limit_it("its plan within 1 round, stop 1 on its round with reason 9", &s, &plan, 1);
    planner_set_stop_reason(plan.bytes, 2, PLANNER_ASIDE_LIMITED + 1);
    limit_it("its plan within 1 round, stop 2 set aside with reason 9", &s, &plan, 1);
    bill_it("its bill, stop 2 set aside with reason 9", &s, &plan, rates, 0);
    deal_it("its rounds dealt to two crews, stop 2 set aside with reason 9", &s, &plan, 2, 0);
}

/* A text of ROWS rows, and a customer's row. */
static const char brickworks[] = "BRICKWORKS\n"
                                 "VEHICLE\n"
                                 "NUMBER CAPACITY\n"
                                 "   3       20\n"
                                 "CUST NO.  X  Y  DEMAND  READY  DUE  SERVICE\n"
                                 "   0      0  0     0       0   240     0\n"
                                 "   1      3  4     8      30    90    15\n";
static const char customer[] = "   2     -6  8     5       0   120    10\n";

/* Imports the text with this customer into a buffer of so many bytes, and plans the sheet. */
static void import_it(const char *what, const char *last, size_t lent)
{
    struct sheet s;
    char text[sizeof brickworks + sizeof customer];
    size_t text_len = (size_t)snprintf(text, sizeof text, "%s%s", brickworks, last);
    int32_t answer = import_solomon((const uint8_t *)text, text_len, s.bytes, lent);
    printf("%s: %s\n", what, words(planner_refusal_in(answer)));
    if (answer < 0)
        return;
    s.len = (size_t)answer;
    printf("  a sheet of %zu bytes; from 1 to 2 it is %g\n", s.len, planner_distance(s.bytes, 1, 2));
    plan_it("its plan", &s);
}

int main(void)
{
    static const char *const methods[] = {"sheet A, savings", "sheet A, insertion", "sheet A, nearest neighbour",
                                          "sheet A, nn_tw", "sheet A, sweep"};
    struct sheet s = sheet_a();
    for (unsigned method = PLANNER_SAVINGS; method <= PLANNER_SWEEP; method++) {
        planner_set_sheet_method(s.bytes, method);
        plan_it(methods[method], &s);
    }

    s = sheet_a();
    planner_set_vehicle_capacity(s.bytes, 0, 0);
    struct plan apart = plan_it("sheet A, savings, capacity 0", &s);
    limit_it("the same within 1 round, capacity 0", &s, &apart, 1);
    planner_set_sheet_method(s.bytes, PLANNER_INSERTION);
    plan_it("sheet A, insertion, capacity 0", &s);

    s = sheet_a();
    limit_it("two rounds of sheet A within 2", &s, &apart, 2);
    limit_it("two rounds of sheet A within 1", &s, &apart, 1);
    limit_it("two rounds of sheet A within 0", &s, &apart, 0);
    planner_set_stop_next(apart.bytes, 2, 2);
    limit_it("two rounds of sheet A, next of 2 is 2", &s, &apart, 1);
    planner_set_row_marks(s.bytes, 1, PLANNER_DEPOT);
    limit_it("sheet A with 2 depots, within 1 round", &s, &apart, 1);

    s = sheet_a();
    planner_set_sheet_method(s.bytes, PLANNER_NN_TW);
    planner_set_vehicle_marks(s.bytes, 0, PLANNER_REST);
    planner_set_vehicle_earliest(s.bytes, 0, 12.0);
    planner_set_vehicle_latest(s.bytes, 0, 12.0);
    planner_set_vehicle_rest_duration(s.bytes, 0, 5.0);
    plan_it("sheet A, nn_tw, a rest of 5 at 12", &s);

    planner_set_vehicle_marks(s.bytes, 0, PLANNER_MAX_DURATION | PLANNER_REST);
    planner_set_vehicle_max_duration(s.bytes, 0, 29.0);
    planner_set_vehicle_earliest(s.bytes, 0, 20.0);
    planner_set_vehicle_latest(s.bytes, 0, 24.0);
    plan_it("sheet A, nn_tw, a rest of 5 from 20 to 24, duration at most 29", &s);
    planner_set_vehicle_marks(s.bytes, 0, PLANNER_MAX_DURATION | PLANNER_REST | PLANNER_REST_AT_HOME);
    struct plan rested = plan_it("the same, the rest at home too", &s);
    limit_it("its plan within 1 round", &s, &rested, 1);
    planner_set_vehicle_max_duration(s.bytes, 0, 28.0);
    limit_it("the same, duration at most 28", &s, &rested, 1);

    bill_sheet_a();
    deal_sheet_a();
    set_aside();

    s = sheet_a();
    s.len = 0;
    ask("0 bytes", &s);

    s = sheet_a();
    planner_set_rows(s.bytes, 102);
    ask("102 rows", &s);

    s = sheet_a();
    planner_set_sheet_method(s.bytes, 5);
    ask("method 5", &s);

    s = sheet_a();
    s.len += 1;
    ask("sheet A, one byte too many", &s);

    s = sheet_a();
    ask_with_plan("sheet A, one byte too many in the plan", &s, 1);

    s = sheet_a();
    planner_set_row_marks(s.bytes, 1, PLANNER_WINDOW);
    planner_set_row_ready(s.bytes, 1, 4.0);
    planner_set_row_due(s.bytes, 1, 3.0);
    ask("stop 1 ready 4, due 3", &s);

    s = sheet_a();
    planner_put(s.bytes + planner_distance_at(s.bytes, 0, 0), 8, UINT64_C(0x7ff8000000000000));
    ask("a distance that is NaN", &s);

    s = sheet_a();
    planner_set_vehicle_depot(s.bytes, 0, 1);
    ask("vehicle 7 at depot 1 of 1", &s);

    s = sheet_a();
    planner_set_vehicle_marks(s.bytes, 0, PLANNER_REST_AT_HOME);
    ask("vehicle 7 with a rest at home and no rest", &s);

    s = without_vehicle(PLANNER_INSERTION);
    ask("insertion, 0 vehicles", &s);

    s = without_vehicle(PLANNER_NEAREST_NEIGHBOR);
    ask("nearest neighbour, 0 vehicles", &s);

    import_it("a text", customer, IMPORT_BYTES);
    import_it("a text, a buffer of one byte more", customer, IMPORT_BYTES + 1);
    import_it("a text, a buffer of one byte too few", customer, IMPORT_BYTES - 1);
    import_it("a text with a customer 3 after customer 1", "   3     -6  8     5       0   120    10\n", IMPORT_BYTES);
    import_it("a text with ready 130, due 120", "   2     -6  8     5     130   120    10\n", IMPORT_BYTES);
    return 0;
}
