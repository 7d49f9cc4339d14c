/*
 * Readers and writers of every field of a sheet and of a plan, readers of a bill and of
 * a deal, and the words of a refusal and of a reason, for C and C++ hosts of planner.h.
 * Everything is inline: nothing of it is in the archive, and nothing of it is proved.
 *
 * A sheet, a plan, a bill and a deal are the bytes that planner.h lays out. The functions
 * take their address, and a row's, vehicle's or round's number from 0 on; they read and
 * write the bytes of the field and no others, and check nothing: that the bytes are
 * there is the caller's to see to. PLANNER_SHEET_BYTES, PLANNER_PLAN_BYTES,
 * PLANNER_BILL_BYTES and PLANNER_DEAL_BYTES tell how many there have to be, and
 * planner_sheet_bytes, planner_bill_bytes and planner_deal_bytes those that a header asks
 * for.
 *
 *     uint8_t sheet[PLANNER_SHEET_BYTES(3, 1, 0)] = {0};
 *     planner_set_rows(sheet, 3);          the counts first: the places of vehicles
 *     planner_set_vehicles(sheet, 1);      and legs go by them
 *     planner_set_row_marks(sheet, 0, PLANNER_DEPOT);
 *     planner_set_row_demand(sheet, 1, 4);
 *     planner_set_vehicle_capacity(sheet, 0, 10);
 *     planner_set_distance(sheet, 0, 1, 12.5);
 */
#ifndef PLANNER_FIELDS_H
#define PLANNER_FIELDS_H

#include <stddef.h>
#include <stdint.h>
#include <string.h>

#include "planner.h"

/* ---- numbers, little-endian */

static inline uint64_t planner_get(const uint8_t *at, unsigned width)
{
    uint64_t value = 0;
    for (unsigned i = width; i > 0; i--)
        value = value << 8 | at[i - 1];
    return value;
}

static inline void planner_put(uint8_t *at, unsigned width, uint64_t value)
{
    for (unsigned i = 0; i < width; i++)
        at[i] = PLANNER_CAST(uint8_t, value >> (8 * i));
}

static inline double planner_get_f64(const uint8_t *at)
{
    uint64_t bits = planner_get(at, 8);
    double value;
    memcpy(&value, &bits, sizeof value);
    return value;
}

static inline void planner_put_f64(uint8_t *at, double value)
{
    uint64_t bits;
    memcpy(&bits, &value, sizeof bits);
    planner_put(at, 8, bits);
}

static inline int32_t planner_get_i32(const uint8_t *at)
{
    uint32_t pattern = PLANNER_CAST(uint32_t, planner_get(at, 4));
    int32_t value;
    memcpy(&value, &pattern, sizeof value);
    return value;
}

static inline void planner_put_i32(uint8_t *at, int32_t value)
{
    uint32_t pattern;
    memcpy(&pattern, &value, sizeof pattern);
    planner_put(at, 4, pattern);
}

/* ---- offsets of the fields in their records */

enum {
    PLANNER_AT_ROWS = 0,
    PLANNER_AT_VEHICLES = 2,
    PLANNER_AT_METHOD = 4,
    PLANNER_AT_TIME_TABLE = 5,
    PLANNER_AT_SPARE = 6
};

enum {
    PLANNER_ROW_X = 0,
    PLANNER_ROW_Y = 4,
    PLANNER_ROW_DEMAND = 8,
    PLANNER_ROW_MARKS = 12,
    PLANNER_ROW_SERVICE = 16,
    PLANNER_ROW_READY = 24,
    PLANNER_ROW_DUE = 32,
    PLANNER_ROW_PENALTY = 40
};

enum {
    PLANNER_VEHICLE_ID = 0,
    PLANNER_VEHICLE_DEPOT = 4,
    PLANNER_VEHICLE_CAPACITY = 8,
    PLANNER_VEHICLE_MARKS = 12,
    PLANNER_VEHICLE_COST_PER_DISTANCE = 16,
    PLANNER_VEHICLE_FIXED_COST = 24,
    PLANNER_VEHICLE_MAX_DISTANCE = 32,
    PLANNER_VEHICLE_MAX_DURATION = 40,
    PLANNER_VEHICLE_EARLIEST = 48,
    PLANNER_VEHICLE_LATEST = 56,
    PLANNER_VEHICLE_REST_DURATION = 64
};

enum {
    PLANNER_PLAN_ROUNDS = 0,
    PLANNER_PLAN_ASIDE = 2,
    PLANNER_PLAN_ROWS = 4,
    PLANNER_PLAN_SPARE = 6,
    PLANNER_PLAN_COST = 8
};

enum {
    PLANNER_ROUND_ID = 0,
    PLANNER_ROUND_LOAD = 4,
    PLANNER_ROUND_FIRST = 8,
    PLANNER_ROUND_REST_PLACE = 10,
    PLANNER_ROUND_SPARE = 12,
    PLANNER_ROUND_DISTANCE = 16,
    PLANNER_ROUND_DURATION = 24,
    PLANNER_ROUND_LATENESS = 32,
    PLANNER_ROUND_LATENESS_COST = 40,
    PLANNER_ROUND_REST_START = 48
};

enum {
    PLANNER_STOP_NEXT = 0,
    PLANNER_STOP_REASON = 2,
    PLANNER_STOP_LOAD = 4,
    PLANNER_STOP_ARRIVAL = 8,
    PLANNER_STOP_DEPARTURE = 16
};

/* ---- the header of a sheet, and where its records start */

static inline unsigned planner_rows(const uint8_t *sheet)
{
    return PLANNER_CAST(unsigned, planner_get(sheet + PLANNER_AT_ROWS, 2));
}

static inline void planner_set_rows(uint8_t *sheet, unsigned rows)
{
    planner_put(sheet + PLANNER_AT_ROWS, 2, rows);
}

static inline unsigned planner_vehicles(const uint8_t *sheet)
{
    return PLANNER_CAST(unsigned, planner_get(sheet + PLANNER_AT_VEHICLES, 2));
}

static inline void planner_set_vehicles(uint8_t *sheet, unsigned vehicles)
{
    planner_put(sheet + PLANNER_AT_VEHICLES, 2, vehicles);
}

static inline unsigned planner_sheet_method(const uint8_t *sheet)
{
    return sheet[PLANNER_AT_METHOD];
}

static inline void planner_set_sheet_method(uint8_t *sheet, unsigned method)
{
    sheet[PLANNER_AT_METHOD] = PLANNER_CAST(uint8_t, method);
}

static inline unsigned planner_time_table(const uint8_t *sheet)
{
    return sheet[PLANNER_AT_TIME_TABLE];
}

static inline void planner_set_time_table(uint8_t *sheet, unsigned time_table)
{
    sheet[PLANNER_AT_TIME_TABLE] = PLANNER_CAST(uint8_t, time_table);
}

/* How many bytes a sheet with this header has. */
static inline size_t planner_sheet_bytes(const uint8_t *sheet)
{
    return PLANNER_SHEET_BYTES(planner_rows(sheet), planner_vehicles(sheet), planner_time_table(sheet));
}

static inline size_t planner_row_at(unsigned row)
{
    return PLANNER_CAST(size_t, PLANNER_HEADER_BYTES) + PLANNER_CAST(size_t, PLANNER_ROW_BYTES) * row;
}

static inline size_t planner_vehicle_at(const uint8_t *sheet, unsigned vehicle)
{
    return planner_row_at(planner_rows(sheet)) + PLANNER_CAST(size_t, PLANNER_VEHICLE_BYTES) * vehicle;
}

/* The distance of the leg from row a to row b; its time, which a sheet without a time table does not have. */
static inline size_t planner_distance_at(const uint8_t *sheet, unsigned a, unsigned b)
{
    size_t leg = PLANNER_CAST(size_t, a) * planner_rows(sheet) + b;
    return planner_vehicle_at(sheet, planner_vehicles(sheet)) + PLANNER_CAST(size_t, PLANNER_LEG_BYTES) * leg;
}

static inline size_t planner_time_at(const uint8_t *sheet, unsigned a, unsigned b)
{
    size_t rows = planner_rows(sheet);
    return planner_distance_at(sheet, a, b) + PLANNER_CAST(size_t, PLANNER_LEG_BYTES) * rows * rows;
}

static inline double planner_distance(const uint8_t *sheet, unsigned a, unsigned b)
{
    return planner_get_f64(sheet + planner_distance_at(sheet, a, b));
}

static inline void planner_set_distance(uint8_t *sheet, unsigned a, unsigned b, double distance)
{
    planner_put_f64(sheet + planner_distance_at(sheet, a, b), distance);
}

/* Without a time table distances serve as times. */
static inline double planner_time(const uint8_t *sheet, unsigned a, unsigned b)
{
    return planner_time_table(sheet) ? planner_get_f64(sheet + planner_time_at(sheet, a, b)) : planner_distance(sheet, a, b);
}

static inline void planner_set_time(uint8_t *sheet, unsigned a, unsigned b, double time)
{
    planner_put_f64(sheet + planner_time_at(sheet, a, b), time);
}

/* The number of depots: the leading rows marked so, and row 0 in any case. */
static inline unsigned planner_depots(const uint8_t *sheet)
{
    unsigned rows = planner_rows(sheet), depots = 0;
    while (depots < rows && (planner_get(sheet + planner_row_at(depots) + PLANNER_ROW_MARKS, 4) & PLANNER_DEPOT))
        depots++;
    return depots > 0 ? depots : 1;
}

/* ---- where the records of a plan start. Those of rows go by the number of rows that the plan's header has. */

static inline size_t planner_round_at(unsigned round)
{
    return PLANNER_CAST(size_t, PLANNER_PLAN_HEADER_BYTES) + PLANNER_CAST(size_t, PLANNER_PLAN_ROUND_BYTES) * round;
}

static inline size_t planner_stop_at(const uint8_t *plan, unsigned stop)
{
    return planner_round_at(PLANNER_CAST(unsigned, planner_get(plan + PLANNER_PLAN_ROWS, 2))) + PLANNER_CAST(size_t, PLANNER_PLAN_STOP_BYTES) * stop;
}

/* ---- every field: planner_row_due(sheet, 3) reads, planner_set_row_due(sheet, 3, 40.0) writes */

#define PLANNER_FIELD_F64(record, at, field, offset)                                        \
    static inline double planner_##record##_##field(const uint8_t *bytes, unsigned number)  \
    {                                                                                       \
        return planner_get_f64(bytes + at + offset);                                        \
    }                                                                                       \
    static inline void planner_set_##record##_##field(uint8_t *bytes, unsigned number, double value) \
    {                                                                                       \
        planner_put_f64(bytes + at + offset, value);                                        \
    }

#define PLANNER_FIELD_I32(record, at, field, offset)                                        \
    static inline int32_t planner_##record##_##field(const uint8_t *bytes, unsigned number) \
    {                                                                                       \
        return planner_get_i32(bytes + at + offset);                                        \
    }                                                                                       \
    static inline void planner_set_##record##_##field(uint8_t *bytes, unsigned number, int32_t value) \
    {                                                                                       \
        planner_put_i32(bytes + at + offset, value);                                        \
    }

#define PLANNER_FIELD_UINT(record, at, field, offset, width)                                \
    static inline uint32_t planner_##record##_##field(const uint8_t *bytes, unsigned number) \
    {                                                                                       \
        return PLANNER_CAST(uint32_t, planner_get(bytes + at + offset, width));                           \
    }                                                                                       \
    static inline void planner_set_##record##_##field(uint8_t *bytes, unsigned number, uint32_t value) \
    {                                                                                       \
        planner_put(bytes + at + offset, width, value);                                     \
    }

PLANNER_FIELD_I32(row, planner_row_at(number), x, PLANNER_ROW_X)
PLANNER_FIELD_I32(row, planner_row_at(number), y, PLANNER_ROW_Y)
PLANNER_FIELD_I32(row, planner_row_at(number), demand, PLANNER_ROW_DEMAND)
PLANNER_FIELD_UINT(row, planner_row_at(number), marks, PLANNER_ROW_MARKS, 4)
PLANNER_FIELD_F64(row, planner_row_at(number), service, PLANNER_ROW_SERVICE)
PLANNER_FIELD_F64(row, planner_row_at(number), ready, PLANNER_ROW_READY)
PLANNER_FIELD_F64(row, planner_row_at(number), due, PLANNER_ROW_DUE)
PLANNER_FIELD_F64(row, planner_row_at(number), penalty, PLANNER_ROW_PENALTY)

PLANNER_FIELD_UINT(vehicle, planner_vehicle_at(bytes, number), id, PLANNER_VEHICLE_ID, 4)
PLANNER_FIELD_UINT(vehicle, planner_vehicle_at(bytes, number), depot, PLANNER_VEHICLE_DEPOT, 4)
PLANNER_FIELD_I32(vehicle, planner_vehicle_at(bytes, number), capacity, PLANNER_VEHICLE_CAPACITY)
PLANNER_FIELD_UINT(vehicle, planner_vehicle_at(bytes, number), marks, PLANNER_VEHICLE_MARKS, 4)
PLANNER_FIELD_F64(vehicle, planner_vehicle_at(bytes, number), cost_per_distance, PLANNER_VEHICLE_COST_PER_DISTANCE)
PLANNER_FIELD_F64(vehicle, planner_vehicle_at(bytes, number), fixed_cost, PLANNER_VEHICLE_FIXED_COST)
PLANNER_FIELD_F64(vehicle, planner_vehicle_at(bytes, number), max_distance, PLANNER_VEHICLE_MAX_DISTANCE)
PLANNER_FIELD_F64(vehicle, planner_vehicle_at(bytes, number), max_duration, PLANNER_VEHICLE_MAX_DURATION)
PLANNER_FIELD_F64(vehicle, planner_vehicle_at(bytes, number), earliest, PLANNER_VEHICLE_EARLIEST)
PLANNER_FIELD_F64(vehicle, planner_vehicle_at(bytes, number), latest, PLANNER_VEHICLE_LATEST)
PLANNER_FIELD_F64(vehicle, planner_vehicle_at(bytes, number), rest_duration, PLANNER_VEHICLE_REST_DURATION)

PLANNER_FIELD_UINT(round, planner_round_at(number), id, PLANNER_ROUND_ID, 4)
PLANNER_FIELD_I32(round, planner_round_at(number), load, PLANNER_ROUND_LOAD)
PLANNER_FIELD_UINT(round, planner_round_at(number), first, PLANNER_ROUND_FIRST, 2)
PLANNER_FIELD_UINT(round, planner_round_at(number), rest_place, PLANNER_ROUND_REST_PLACE, 2)
PLANNER_FIELD_F64(round, planner_round_at(number), distance, PLANNER_ROUND_DISTANCE)
PLANNER_FIELD_F64(round, planner_round_at(number), duration, PLANNER_ROUND_DURATION)
PLANNER_FIELD_F64(round, planner_round_at(number), lateness, PLANNER_ROUND_LATENESS)
PLANNER_FIELD_F64(round, planner_round_at(number), lateness_cost, PLANNER_ROUND_LATENESS_COST)
PLANNER_FIELD_F64(round, planner_round_at(number), rest_start, PLANNER_ROUND_REST_START)

PLANNER_FIELD_UINT(stop, planner_stop_at(bytes, number), next, PLANNER_STOP_NEXT, 2)
PLANNER_FIELD_UINT(stop, planner_stop_at(bytes, number), reason, PLANNER_STOP_REASON, 2)
PLANNER_FIELD_I32(stop, planner_stop_at(bytes, number), load, PLANNER_STOP_LOAD)
PLANNER_FIELD_F64(stop, planner_stop_at(bytes, number), arrival, PLANNER_STOP_ARRIVAL)
PLANNER_FIELD_F64(stop, planner_stop_at(bytes, number), departure, PLANNER_STOP_DEPARTURE)

#undef PLANNER_FIELD_F64
#undef PLANNER_FIELD_I32
#undef PLANNER_FIELD_UINT

/* ---- the header of a plan */

static inline unsigned planner_plan_rounds(const uint8_t *plan)
{
    return PLANNER_CAST(unsigned, planner_get(plan + PLANNER_PLAN_ROUNDS, 2));
}

static inline void planner_set_plan_rounds(uint8_t *plan, unsigned rounds)
{
    planner_put(plan + PLANNER_PLAN_ROUNDS, 2, rounds);
}

/* The first stop set aside, 0 where there is none. */
static inline unsigned planner_plan_aside(const uint8_t *plan)
{
    return PLANNER_CAST(unsigned, planner_get(plan + PLANNER_PLAN_ASIDE, 2));
}

static inline void planner_set_plan_aside(uint8_t *plan, unsigned stop)
{
    planner_put(plan + PLANNER_PLAN_ASIDE, 2, stop);
}

static inline unsigned planner_plan_rows(const uint8_t *plan)
{
    return PLANNER_CAST(unsigned, planner_get(plan + PLANNER_PLAN_ROWS, 2));
}

/* A plan that a host makes up needs it for the functions above; limit_rounds, bill_rounds and deal_rounds do not read it. */
static inline void planner_set_plan_rows(uint8_t *plan, unsigned rows)
{
    planner_put(plan + PLANNER_PLAN_ROWS, 2, rows);
}

static inline double planner_plan_cost(const uint8_t *plan)
{
    return planner_get_f64(plan + PLANNER_PLAN_COST);
}

/* ---- a bill. It does not say how many rounds it has: that is its plan's to say. */

/* How many bytes the bill of a plan with this header has. */
static inline size_t planner_bill_bytes(const uint8_t *plan)
{
    return PLANNER_BILL_BYTES(planner_plan_rounds(plan));
}

/* In cents, and so is the sum. */
static inline uint64_t planner_bill_charge(const uint8_t *bill, unsigned round)
{
    return planner_get(bill + PLANNER_CAST(size_t, PLANNER_CHARGE_BYTES) * round, PLANNER_CHARGE_BYTES);
}

static inline uint64_t planner_bill_sum(const uint8_t *bill, unsigned rounds)
{
    return planner_bill_charge(bill, rounds);
}

/* ---- a deal, which does not say that either */

/* How many bytes the deal of a plan with this header has. */
static inline size_t planner_deal_bytes(const uint8_t *plan)
{
    return PLANNER_DEAL_BYTES(planner_plan_rounds(plan));
}

/* From 1. */
static inline unsigned planner_deal_crew(const uint8_t *deal, unsigned round)
{
    return deal[round];
}

/* ---- the sentence of an answer */

/* The refusal in an answer of import_solomon's; PLANNER_ACCEPTED where it is a length. */
static inline uint32_t planner_refusal_in(int32_t answer)
{
    return answer < 0 ? PLANNER_CAST(uint32_t, -PLANNER_CAST(int64_t, answer)) : PLANNER_CAST(uint32_t, PLANNER_ACCEPTED);
}

static inline const char *planner_refusal_text(uint32_t number)
{
    switch (number) {
    case PLANNER_ACCEPTED: return "accepted";
    case PLANNER_BAD_HEADER: return "the sheet is under 16 bytes, its time table byte is above 1, or a spare byte of its header is set";
    case PLANNER_TOO_MANY: return "the sheet has more rows or more vehicles than a sheet may have";
    case PLANNER_BAD_METHOD: return "the sheet names no method";
    case PLANNER_BAD_LENGTH: return "the sheet, the plan or a buffer is not of the length that is asked for";
    case PLANNER_BAD_ROW: return "a field or a mark of a row is out of range, or an unmarked field is not zero";
    case PLANNER_BAD_MATRIX: return "a distance or a time is out of range";
    case PLANNER_BAD_VEHICLE: return "a field, a mark or the depot of a vehicle is out of range, a rest at home is marked without a rest, an unmarked field is not zero, or an id stands twice";
    case PLANNER_NO_VEHICLE: return "savings, insertion and sweep need a vehicle, and the sheet has none";
    case PLANNER_SEVERAL_DEPOTS: return "the sheet has several depots, and the limiter takes one";
    case PLANNER_BAD_PLAN: return "the plan has more rounds than the sheet has rows, an unknown vehicle, a link to no stop, a stop that does not stand exactly once, or a stop set aside with a reason above 8";
    case PLANNER_BAD_TEXT: return "the text is not of the form of Solomon's instances";
    case PLANNER_TOO_MANY_CUSTOMERS: return "the text has more than 100 customers after its depot";
    case PLANNER_BAD_RATE: return "a rate or the least charge is above 1,000,000 cents";
    case PLANNER_BAD_CREWS: return "the number of crews is 0 or above 8";
    default: return "no answer of the planner's";
    }
}

/* ---- the sentence of a reason */

/* Of a stop set aside: planner_reason_text(planner_stop_reason(plan, stop)). */
static inline const char *planner_reason_text(uint32_t number)
{
    switch (number) {
    case PLANNER_ASIDE_UNTOLD: return "the plan does not say why";
    case PLANNER_ASIDE_NO_VEHICLE: return "no depot has a vehicle";
    case PLANNER_ASIDE_CAPACITY: return "its demand is above the vehicle's capacity";
    case PLANNER_ASIDE_WINDOW: return "even a round of its own is too late for its window";
    case PLANNER_ASIDE_REST: return "a round of its own has no place for the rest";
    case PLANNER_ASIDE_DISTANCE: return "a round of its own is over the maximum distance";
    case PLANNER_ASIDE_DURATION: return "a round of its own is over the maximum duration, or the depot's due";
    case PLANNER_ASIDE_FLEET: return "the fleet is used up";
    case PLANNER_ASIDE_LIMITED: return "its round was dropped, and it fits in no other";
    default: return "no reason of the planner's";
    }
}

#endif
