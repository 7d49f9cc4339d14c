/*
 * Sheets of every shape, drawn with small whole numbers, so that most comparisons meet
 * ties.
 */
#ifndef SHEETS_H
#define SHEETS_H

#include <stdint.h>
#include <string.h>

#include "planner_fields.h"

/* What a sheet is drawn by: capacities are below `load`, and windows, rests and maxima grow with `hours`. */
struct shape {
    unsigned rows, depots, vehicles, method, time_table, load, hours;
};

static inline uint64_t bits_of(double value)
{
    uint64_t bits;
    memcpy(&bits, &value, sizeof bits);
    return bits;
}

/* xorshift64. */
static inline uint64_t next_random(uint64_t *state)
{
    *state ^= *state << 13;
    *state ^= *state >> 7;
    *state ^= *state << 17;
    return *state;
}

static inline unsigned below(uint64_t *state, unsigned n)
{
    return (unsigned)((next_random(state) >> 33) % n);
}

static inline int32_t small(uint64_t *state, unsigned n)
{
    return (int32_t)below(state, n);
}

/* The bytes of a record; of a sheet whose header says how many rows and vehicles it has. */
static inline uint8_t *row_of(uint8_t *sheet, unsigned r)
{
    return sheet + planner_row_at(r);
}

static inline uint8_t *vehicle_of(uint8_t *sheet, unsigned v)
{
    return sheet + planner_vehicle_at(sheet, v);
}

static inline uint8_t *legs_of(uint8_t *sheet)
{
    return sheet + planner_distance_at(sheet, 0, 0);
}

/* An accepted sheet whose numbers are zero, but for the ids of its vehicles. */
static inline size_t plain_sheet(uint8_t *sheet, unsigned rows, unsigned vehicles, unsigned time_table)
{
    size_t len = PLANNER_SHEET_BYTES(rows, vehicles, time_table);
    memset(sheet, 0, len);
    planner_set_rows(sheet, rows);
    planner_set_vehicles(sheet, vehicles);
    planner_set_sheet_method(sheet, PLANNER_NEAREST_NEIGHBOR);
    planner_set_time_table(sheet, time_table);
    for (unsigned v = 0; v < vehicles; v++)
        planner_set_vehicle_id(sheet, v, v);
    return len;
}

static inline void draw_row(uint8_t *sheet, unsigned r, struct shape shape, uint64_t *state)
{
    unsigned marks = below(state, 4) * 2 + (r < shape.depots ? PLANNER_DEPOT : 0);
    unsigned ready = below(state, 40) * shape.hours;
    planner_set_row_x(sheet, r, small(state, 100));
    planner_set_row_y(sheet, r, small(state, 100));
    planner_set_row_demand(sheet, r, small(state, 5));
    planner_set_row_marks(sheet, r, marks);
    planner_set_row_service(sheet, r, below(state, 4));
    if (marks & PLANNER_WINDOW) {
        planner_set_row_ready(sheet, r, ready);
        planner_set_row_due(sheet, r, ready + below(state, 60) * shape.hours);
    }
    if (marks & PLANNER_PENALTY)
        planner_set_row_penalty(sheet, r, below(state, 3));
}

static inline void draw_vehicle(uint8_t *sheet, unsigned v, struct shape shape, uint64_t *state)
{
    unsigned marks = below(state, 16);
    unsigned earliest = below(state, 40) * shape.hours;
    if (!(marks & PLANNER_REST))
        marks &= ~(unsigned)PLANNER_REST_AT_HOME;
    planner_set_vehicle_id(sheet, v, 100 + v);
    planner_set_vehicle_depot(sheet, v, below(state, shape.depots));
    planner_set_vehicle_capacity(sheet, v, small(state, shape.load));
    planner_set_vehicle_marks(sheet, v, marks);
    planner_set_vehicle_cost_per_distance(sheet, v, below(state, 3));
    planner_set_vehicle_fixed_cost(sheet, v, below(state, 20));
    if (marks & PLANNER_MAX_DISTANCE)
        planner_set_vehicle_max_distance(sheet, v, below(state, 200) * shape.hours);
    if (marks & PLANNER_MAX_DURATION)
        planner_set_vehicle_max_duration(sheet, v, below(state, 200) * shape.hours);
    if (marks & PLANNER_REST) {
        planner_set_vehicle_earliest(sheet, v, earliest);
        planner_set_vehicle_latest(sheet, v, earliest + below(state, 30) * shape.hours);
        planner_set_vehicle_rest_duration(sheet, v, below(state, 10));
    }
}

/* Accepted where the method needs no vehicle or there is one; any marks. */
static inline size_t draw_sheet(uint8_t *sheet, struct shape shape, uint64_t *state)
{
    size_t len = plain_sheet(sheet, shape.rows, shape.vehicles, shape.time_table);
    planner_set_sheet_method(sheet, shape.method);
    for (unsigned r = 0; r < shape.rows; r++)
        draw_row(sheet, r, shape, state);
    for (unsigned v = 0; v < shape.vehicles; v++)
        draw_vehicle(sheet, v, shape, state);
    for (uint8_t *leg = legs_of(sheet); leg < sheet + len; leg += PLANNER_LEG_BYTES)
        planner_put_f64(leg, below(state, 50));
    return len;
}

static inline int needs_vehicle(unsigned method)
{
    return method != PLANNER_NEAREST_NEIGHBOR && method != PLANNER_NN_TW;
}

#endif
