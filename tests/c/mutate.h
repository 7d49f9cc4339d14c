/*
 * Mutations of sheets that know their form: a field is changed according to what it
 * is, counts with the length and without it, and what the sheet's own plan reached is
 * put where it is compared.
 */
#ifndef MUTATE_H
#define MUTATE_H

#include "lend.h"
#include "plan_check.h"
#include "sheets.h"

struct sheet {
    uint8_t bytes[MOST_SHEET];
    size_t len, plan_len;
};

/* What a field of a record may hold; `most` is the end of its range where that differs. */
enum kind { COORDINATE, DEMAND, MARKS, NUMBER, ID, DEPOT, CAPACITY, RATE };
struct field {
    unsigned at;
    enum kind kind;
    double most;
    unsigned mark;
};

/* Marks stand at one place in both records. */
enum { AT_MARKS = PLANNER_ROW_MARKS };

static const struct field row_fields[] = {
    {PLANNER_ROW_X, COORDINATE, 0, 0},
    {PLANNER_ROW_Y, COORDINATE, 0, 0},
    {PLANNER_ROW_DEMAND, DEMAND, 0, 0},
    {PLANNER_ROW_MARKS, MARKS, 7, 0},
    {PLANNER_ROW_SERVICE, NUMBER, 1e9, 0},
    {PLANNER_ROW_READY, NUMBER, 1e9, PLANNER_WINDOW},
    {PLANNER_ROW_DUE, NUMBER, 1e9, PLANNER_WINDOW},
    {PLANNER_ROW_PENALTY, NUMBER, 1e6, PLANNER_PENALTY},
};
static const struct field vehicle_fields[] = {
    {PLANNER_VEHICLE_ID, ID, 0, 0},
    {PLANNER_VEHICLE_DEPOT, DEPOT, 0, 0},
    {PLANNER_VEHICLE_CAPACITY, CAPACITY, 0, 0},
    {PLANNER_VEHICLE_MARKS, MARKS, 15, 0},
    {PLANNER_VEHICLE_COST_PER_DISTANCE, RATE, 1e6, 0},
    {PLANNER_VEHICLE_FIXED_COST, NUMBER, 1e9, 0},
    {PLANNER_VEHICLE_MAX_DISTANCE, NUMBER, 1e12, PLANNER_MAX_DISTANCE},
    {PLANNER_VEHICLE_MAX_DURATION, NUMBER, 1e12, PLANNER_MAX_DURATION},
    {PLANNER_VEHICLE_EARLIEST, NUMBER, 1e9, PLANNER_REST},
    {PLANNER_VEHICLE_LATEST, NUMBER, 1e9, PLANNER_REST},
    {PLANNER_VEHICLE_REST_DURATION, NUMBER, 1e9, PLANNER_REST},
};
enum { ROW_FIELDS = sizeof row_fields / sizeof row_fields[0] };
enum { VEHICLE_FIELDS = sizeof vehicle_fields / sizeof vehicle_fields[0] };
static const double MOST_LEG = 1e9;

static uint64_t state;
/* Whether the sheet being made may leave the ranges. */
static int bold;

static inline unsigned draw(unsigned n)
{
    return below(&state, n);
}

static inline int one_in(unsigned n)
{
    return draw(n) == 0;
}

/* Whether the next value leaves its range. */
static inline int strays(void)
{
    return bold && one_in(2);
}

static inline uint64_t pick(const uint64_t *from, unsigned n)
{
    return from[draw(n)];
}
#define PICK(from) pick(from, sizeof(from) / sizeof(from)[0])

/* Bits of a number from 0 to `most`: the ends and what is beside them, denormals, whole numbers, tenths, any. */
static inline uint64_t number_within(double most)
{
    const uint64_t ends[] = {0, 1, UINT64_C(0x000fffffffffffff), UINT64_C(0x0010000000000000),
                             bits_of(most) - 1, bits_of(most), bits_of(1.0), bits_of(most / 2)};
    switch (draw(5)) {
    case 0: return PICK(ends);
    case 1: return bits_of(draw(60));
    case 2: return bits_of(draw(600) * 0.1);
    case 3: return bits_of(draw(4));
    default: return bits_of(most * ((double)draw(1u << 30) / (1u << 30)));
    }
}

/* Bits beyond: negative zero and numbers, NaN, the infinities, one step above `most`. */
static inline uint64_t number_beyond(double most)
{
    const uint64_t beyond[] = {UINT64_C(0x8000000000000000), UINT64_C(0x8000000000000001), bits_of(-1.0),
                               bits_of(most) + 1, bits_of(2 * most), bits_of(-most),
                               UINT64_C(0x7fefffffffffffff), UINT64_C(0x7ff0000000000000),
                               UINT64_C(0xfff0000000000000), UINT64_C(0x7ff8000000000000),
                               UINT64_C(0xfff8000000000000), UINT64_C(0x7ff0000000000001),
                               UINT64_C(0xffffffffffffffff), next_random(&state)};
    return PICK(beyond);
}

static inline uint64_t draw_number(double most)
{
    return strays() ? number_beyond(most) : number_within(most);
}

/* Cost per distance: 0, or from 0.001 up. */
static inline uint64_t draw_rate(void)
{
    const uint64_t within[] = {0, bits_of(0.001), bits_of(0.001) + 1, bits_of(1.0), bits_of(2.0), bits_of(1e6)};
    const uint64_t beyond[] = {bits_of(0.001) - 1, 1, number_beyond(1e6)};
    return strays() ? PICK(beyond) : PICK(within);
}

static inline uint64_t draw_coordinate(void)
{
    const uint64_t within[] = {0, 1, (uint32_t)-1, 1000000, (uint32_t)-1000000, 999999,
                               draw(100), draw(2000001) - UINT64_C(1000000)};
    const uint64_t beyond[] = {1000001, (uint32_t)-1000001, 0x7fffffff, 0x80000000, next_random(&state)};
    return strays() ? PICK(beyond) : PICK(within);
}

static inline uint64_t draw_demand(void)
{
    const uint64_t within[] = {0, 1, 1, 2, 5, draw(20), 999999, 1000000};
    const uint64_t beyond[] = {1000001, 0x7fffffff, 0x80000000, 0xffffffff};
    return strays() ? PICK(beyond) : PICK(within);
}

static inline uint64_t draw_capacity(void)
{
    const uint64_t within[] = {0, 1, 2, 5, draw(20), draw(200), 1000000, 100000000, 0x7fffffff};
    const uint64_t beyond[] = {0x80000000, 0xffffffff};
    return strays() ? PICK(beyond) : PICK(within);
}

/* A vehicle's may have a rest at home without a rest: mend sets that right. */
static inline uint64_t draw_marks(unsigned most)
{
    const uint64_t beyond[] = {most + 1, most + 2, 0x10, 0x18, 0x80000000, 0xffffffff, next_random(&state)};
    return strays() ? PICK(beyond) : draw(most + 1);
}

static inline unsigned rows_in(const struct sheet *s)
{
    return planner_rows(s->bytes);
}

static inline unsigned vehicles_in(const struct sheet *s)
{
    return planner_vehicles(s->bytes);
}

static inline size_t legs_in(const struct sheet *s)
{
    return (size_t)rows_in(s) * rows_in(s) * (1u + planner_time_table(s->bytes));
}

/* Whether the sheet is of the length that its header asks, so that its fields can be found. */
static inline int laid_out(const struct sheet *s)
{
    return s->len >= PLANNER_HEADER_BYTES && rows_in(s) <= PLANNER_MOST_ROWS + 1
           && vehicles_in(s) <= PLANNER_MOST_VEHICLES + 1 && planner_time_table(s->bytes) <= 1
           && s->len == planner_sheet_bytes(s->bytes);
}

static inline struct shape draw_shape(void)
{
    struct shape shape;
    unsigned size = draw(64);
    shape.rows = size == 0 ? draw(PLANNER_MOST_ROWS + 1) : size < 6 ? draw(30) : draw(11);
    shape.depots = shape.rows == 0 || one_in(2) ? 1 : 1 + draw(shape.rows < 5 ? shape.rows : 5);
    shape.vehicles = one_in(16) ? draw(PLANNER_MOST_VEHICLES + 1) : draw(6);
    shape.method = draw(PLANNER_SWEEP + 1);
    shape.time_table = (unsigned)one_in(3);
    shape.load = one_in(3) ? 400 : 15;
    shape.hours = one_in(3) ? 10 : 1;
    return shape;
}

static inline void draw_fresh(struct sheet *s)
{
    s->len = draw_sheet(s->bytes, draw_shape(), &state);
}

static inline void copy_legs(struct sheet *to, const struct sheet *from, unsigned table, unsigned from_table)
{
    unsigned rows = rows_in(to), old = rows_in(from);
    uint8_t *legs = legs_of(to->bytes) + (size_t)PLANNER_LEG_BYTES * table * rows * rows;
    const uint8_t *had = legs_of((uint8_t *)from->bytes) + (size_t)PLANNER_LEG_BYTES * from_table * old * old;
    for (unsigned a = 0; a < rows && a < old; a++)
        memcpy(legs + (size_t)PLANNER_LEG_BYTES * a * rows, had + (size_t)PLANNER_LEG_BYTES * a * old,
               PLANNER_LEG_BYTES * (rows < old ? rows : old));
}

/* The sheet with other counts: what it had stays, what is missing is drawn. */
static inline void reshape(struct sheet *s, unsigned rows, unsigned vehicles, unsigned time_table)
{
    static struct sheet old;
    struct shape shape = {rows, planner_depots(s->bytes), vehicles, planner_sheet_method(s->bytes), time_table, 15, 1};
    unsigned had_rows = rows_in(s), had_vehicles = vehicles_in(s), had_table = planner_time_table(s->bytes);
    old.len = s->len;
    memcpy(old.bytes, s->bytes, s->len);
    s->len = draw_sheet(s->bytes, shape, &state);
    memcpy(row_of(s->bytes, 0), row_of(old.bytes, 0), PLANNER_ROW_BYTES * (rows < had_rows ? rows : had_rows));
    memcpy(vehicle_of(s->bytes, 0), vehicle_of(old.bytes, 0),
           PLANNER_VEHICLE_BYTES * (vehicles < had_vehicles ? vehicles : had_vehicles));
    for (unsigned table = 0; table <= time_table; table++)
        copy_legs(s, &old, table, table < had_table ? table : had_table);
}

/* Zeroes fields without their mark, and turns an interval that is the wrong way round. */
static inline void mend_record(uint8_t *record, const struct field *fields, unsigned n, unsigned from, unsigned to)
{
    unsigned marks = (unsigned)planner_get(record + AT_MARKS, 4);
    for (unsigned i = 0; i < n; i++)
        if (fields[i].mark != 0 && !(marks & fields[i].mark))
            planner_put(record + fields[i].at, 8, 0);
    if (planner_get(record + from, 8) > planner_get(record + to, 8)) {
        uint64_t first = planner_get(record + from, 8);
        planner_put(record + from, 8, planner_get(record + to, 8));
        planner_put(record + to, 8, first);
    }
}

static inline int id_is_taken(const struct sheet *s, unsigned v, uint32_t id)
{
    for (unsigned other = 0; other < v; other++)
        if (planner_vehicle_id(s->bytes, other) == id)
            return 1;
    return 0;
}

/* A rest at home goes with a rest. */
static inline void mend_rest(struct sheet *s, unsigned v)
{
    uint32_t marks = planner_vehicle_marks(s->bytes, v);
    if ((marks & (PLANNER_REST | PLANNER_REST_AT_HOME)) == PLANNER_REST_AT_HOME)
        planner_set_vehicle_marks(s->bytes, v, marks ^ PLANNER_REST_AT_HOME);
}

/* Makes what depends on other fields right again. */
static inline void mend(struct sheet *s)
{
    for (unsigned r = 0; r < rows_in(s); r++)
        mend_record(row_of(s->bytes, r), row_fields, ROW_FIELDS, PLANNER_ROW_READY, PLANNER_ROW_DUE);
    unsigned depots = planner_depots(s->bytes);
    for (unsigned v = 0; v < vehicles_in(s); v++) {
        mend_rest(s, v);
        mend_record(vehicle_of(s->bytes, v), vehicle_fields, VEHICLE_FIELDS, PLANNER_VEHICLE_EARLIEST,
                    PLANNER_VEHICLE_LATEST);
        if (planner_vehicle_depot(s->bytes, v) >= depots)
            planner_set_vehicle_depot(s->bytes, v, draw(depots));
        while (id_is_taken(s, v, planner_vehicle_id(s->bytes, v)))
            planner_set_vehicle_id(s->bytes, v, (uint32_t)next_random(&state));
    }
}

/* New marks, and numbers for the fields that they bring. */
static inline void change_marks(uint8_t *record, const struct field *fields, unsigned n, unsigned most)
{
    unsigned had = (unsigned)planner_get(record + AT_MARKS, 4), marks = (unsigned)draw_marks(most);
    planner_put(record + AT_MARKS, 4, marks);
    for (unsigned i = 0; i < n; i++)
        if (fields[i].mark & marks & ~had)
            planner_put(record + fields[i].at, 8, draw_number(fields[i].most));
}

static inline uint64_t draw_id(struct sheet *s)
{
    const uint64_t ids[] = {0, 7, 0xffffffff, next_random(&state), planner_vehicle_id(s->bytes, draw(vehicles_in(s)))};
    return PICK(ids);
}

static inline uint64_t draw_depot(struct sheet *s)
{
    unsigned depots = planner_depots(s->bytes);
    const uint64_t beyond[] = {depots, depots + 1, rows_in(s), 0x80000000, 0xffffffff};
    return strays() ? PICK(beyond) : draw(depots);
}

static inline void change_field(struct sheet *s, uint8_t *record, const struct field *fields, unsigned n)
{
    const struct field *field = &fields[draw(n)];
    uint8_t *at = record + field->at;
    switch (field->kind) {
    case COORDINATE: planner_put(at, 4, draw_coordinate()); break;
    case DEMAND: planner_put(at, 4, draw_demand()); break;
    case MARKS: change_marks(record, fields, n, (unsigned)field->most); break;
    case ID: planner_put(at, 4, draw_id(s)); break;
    case DEPOT: planner_put(at, 4, draw_depot(s)); break;
    case CAPACITY: planner_put(at, 4, draw_capacity()); break;
    case RATE: planner_put(at, 8, draw_rate()); break;
    case NUMBER: planner_put(at, 8, draw_number(field->most)); break;
    }
}

static inline void change_row(struct sheet *s)
{
    if (rows_in(s) > 0)
        change_field(s, row_of(s->bytes, draw(rows_in(s))), row_fields, ROW_FIELDS);
}

static inline void change_vehicle(struct sheet *s)
{
    if (vehicles_in(s) > 0)
        change_field(s, vehicle_of(s->bytes, draw(vehicles_in(s))), vehicle_fields, VEHICLE_FIELDS);
}

/* One row as another, so that they tie; on its point alone, or in all fields. */
static inline void repeat_row(struct sheet *s)
{
    if (rows_in(s) == 0)
        return;
    unsigned to = draw(rows_in(s)), from = draw(rows_in(s));
    memmove(row_of(s->bytes, to), row_of(s->bytes, from), one_in(2) ? PLANNER_ROW_DEMAND : PLANNER_ROW_BYTES);
}

static inline void repeat_vehicle(struct sheet *s)
{
    if (vehicles_in(s) == 0)
        return;
    unsigned to = draw(vehicles_in(s)), from = draw(vehicles_in(s));
    memmove(vehicle_of(s->bytes, to), vehicle_of(s->bytes, from), PLANNER_VEHICLE_BYTES);
}

static inline uint8_t *any_leg(struct sheet *s)
{
    return legs_of(s->bytes) + (size_t)PLANNER_LEG_BYTES * draw((unsigned)legs_in(s));
}

/* To a new number, as another leg, or by one step. */
static inline void change_leg(struct sheet *s)
{
    if (legs_in(s) == 0)
        return;
    uint8_t *leg = any_leg(s);
    switch (draw(4)) {
    case 0: memmove(leg, any_leg(s), PLANNER_LEG_BYTES); break;
    case 1: planner_put(leg, 8, planner_get(leg, 8) + 1); break;
    case 2: planner_put(leg, 8, planner_get(leg, 8) - (planner_get(leg, 8) > 0)); break;
    default: planner_put(leg, 8, draw_number(MOST_LEG)); break;
    }
}

/* All legs out of a row, or into it. */
static inline void change_legs_of_row(struct sheet *s)
{
    unsigned rows = rows_in(s);
    if (rows == 0)
        return;
    unsigned row = draw(rows), out = draw(2);
    uint64_t bits = draw_number(MOST_LEG);
    for (unsigned other = 0; other < rows; other++)
        planner_put(s->bytes + planner_distance_at(s->bytes, out ? row : other, out ? other : row), 8, bits);
}

/* The legs alike both ways. */
static inline void turn_legs(struct sheet *s)
{
    for (unsigned a = 0; a < rows_in(s); a++)
        for (unsigned b = 0; b < a; b++)
            memcpy(s->bytes + planner_distance_at(s->bytes, a, b), s->bytes + planner_distance_at(s->bytes, b, a),
                   PLANNER_LEG_BYTES);
}

static inline int64_t apart(int64_t a, int64_t b)
{
    return a < b ? b - a : a - b;
}

/* Distances as the points lie, along the axes. */
static inline void lay_legs(struct sheet *s)
{
    for (unsigned a = 0; a < rows_in(s); a++)
        for (unsigned b = 0; b < rows_in(s); b++)
            planner_set_distance(s->bytes, a, b,
                                 (double)(apart(planner_row_x(s->bytes, a), planner_row_x(s->bytes, b))
                                          + apart(planner_row_y(s->bytes, a), planner_row_y(s->bytes, b))));
}

/* All legs a tenth, so that sums round, or thrice. */
static inline void scale_legs(struct sheet *s)
{
    double by = one_in(2) ? 0.1 : 3.0;
    for (size_t k = 0; k < legs_in(s); k++) {
        uint8_t *leg = legs_of(s->bytes) + PLANNER_LEG_BYTES * k;
        double scaled = planner_get_f64(leg) * by;
        if (scaled >= 0.0 && scaled <= MOST_LEG)
            planner_put_f64(leg, scaled);
    }
}

static inline void change_method(struct sheet *s)
{
    const uint64_t beyond[] = {5, 6, 0x80, 0xff};
    planner_set_sheet_method(s->bytes, (unsigned)(strays() ? PICK(beyond) : draw(PLANNER_SWEEP + 1)));
}

/* Counts that the length goes with. */
static inline void change_counts(struct sheet *s)
{
    unsigned rows = rows_in(s), vehicles = vehicles_in(s), table = planner_time_table(s->bytes);
    unsigned most_rows = PLANNER_MOST_ROWS + (unsigned)strays(), most_vehicles = PLANNER_MOST_VEHICLES + (unsigned)strays();
    switch (draw(8)) {
    case 0: rows = one_in(8) ? most_rows : draw(12); break;
    case 1:
    case 2: rows += rows < most_rows; break;
    case 3: rows -= rows > 0; break;
    case 4: vehicles = one_in(4) ? most_vehicles : draw(5); break;
    case 5: vehicles += vehicles < most_vehicles; break;
    case 6: vehicles -= vehicles > 0; break;
    default: table = !table; break;
    }
    reshape(s, rows, vehicles, table);
}

/* A field of the header, whatever the length is. */
static inline void change_header(struct sheet *s)
{
    const uint64_t rows[] = {0, 1, 100, 101, 102, 255, 256, 0xffff, rows_in(s) + 1, rows_in(s) - 1u};
    const uint64_t vehicles[] = {0, 1, 15, 16, 17, 256, 0xffff, vehicles_in(s) + 1, vehicles_in(s) - 1u};
    const uint64_t tables[] = {0, 1, 2, 0xff};
    if (s->len < PLANNER_HEADER_BYTES)
        return;
    switch (draw(5)) {
    case 0: planner_set_rows(s->bytes, (unsigned)PICK(rows)); break;
    case 1: planner_set_vehicles(s->bytes, (unsigned)PICK(vehicles)); break;
    case 2: planner_set_time_table(s->bytes, (unsigned)PICK(tables)); break;
    case 3: s->bytes[PLANNER_AT_SPARE + draw(PLANNER_HEADER_BYTES - PLANNER_AT_SPARE)] = (uint8_t)(1u << draw(8)); break;
    default: planner_set_sheet_method(s->bytes, (uint8_t)next_random(&state)); break;
    }
}

static inline void change_length(struct sheet *s)
{
    static const uint64_t cuts[] = {1, 4, 8, 48, 72};
    size_t cut = (size_t)PICK(cuts);
    if (one_in(2) && s->len < MOST_SHEET)
        s->bytes[s->len++] = (uint8_t)next_random(&state);
    else if (one_in(3))
        s->len = draw((unsigned)s->len + 1);
    else
        s->len -= cut < s->len ? cut : s->len;
}

/* A few bytes here and there, or all from one on. */
static inline void change_bytes(struct sheet *s)
{
    if (one_in(6))
        for (size_t i = draw((unsigned)s->len + 1); i < s->len; i++)
            s->bytes[i] = (uint8_t)next_random(&state);
    for (unsigned n = 1 + draw(4); n > 0 && s->len > 0; n--) {
        uint8_t *at = s->bytes + draw((unsigned)s->len);
        *at = one_in(2) ? (uint8_t)next_random(&state) : (uint8_t)(*at ^ 1u << draw(8));
    }
}

/* The bytes of another sheet from some byte on. */
static inline void join_bytes(struct sheet *s, const struct sheet *other)
{
    size_t shorter = s->len < other->len ? s->len : other->len;
    size_t from = draw((unsigned)shorter + 1);
    memcpy(s->bytes + from, other->bytes + from, other->len - from);
    s->len = other->len;
}

/* Another sheet's vehicles, or its rows and legs. */
static inline void join_parts(struct sheet *s, struct sheet *other)
{
    unsigned vehicles = vehicles_in(other), rows = rows_in(other) < rows_in(s) ? rows_in(other) : rows_in(s);
    if (one_in(2)) {
        reshape(s, rows_in(s), vehicles, planner_time_table(s->bytes));
        memcpy(vehicle_of(s->bytes, 0), vehicle_of(other->bytes, 0), PLANNER_VEHICLE_BYTES * vehicles);
    } else {
        memcpy(row_of(s->bytes, 0), row_of(other->bytes, 0), PLANNER_ROW_BYTES * rows);
        copy_legs(s, other, 0, planner_time_table(other->bytes));
    }
}

/* The number reached, or one step beside it, within a range. */
static inline void put_beside(uint8_t *at, const uint8_t *reached, double most)
{
    uint64_t bits = planner_get(reached, 8);
    bits = one_in(2) ? bits : one_in(2) ? bits + 1 : bits - (bits > 0);
    if (bits <= bits_of(most))
        planner_put(at, 8, bits);
}

static inline void put_beside_number(uint8_t *at, double reached, double most)
{
    uint8_t bytes[8];
    planner_put_f64(bytes, reached);
    put_beside(at, bytes, most);
}

/* A window that opens or closes at the stop's arrival. */
static inline void fit_stop(struct sheet *s, const struct reading *r)
{
    unsigned stop = r->depots + draw(r->rows - r->depots);
    uint8_t *row = row_of(s->bytes, stop);
    planner_set_row_marks(s->bytes, stop, planner_row_marks(s->bytes, stop) | PLANNER_WINDOW);
    put_beside(row + PLANNER_ROW_DUE, stop_record(r, stop) + PLANNER_STOP_ARRIVAL, 1e9);
    if (one_in(2))
        put_beside(row + PLANNER_ROW_READY,
                   stop_record(r, stop) + (one_in(2) ? PLANNER_STOP_ARRIVAL : PLANNER_STOP_DEPARTURE), 1e9);
}

/* A rest that fits at home alone: from the round's end on, and it ends just at the maximum duration. */
static inline void fit_home(const struct reading *r, unsigned v, const uint8_t *round)
{
    uint8_t *vehicle = vehicle_of(r->sheet, v);
    uint32_t marks = planner_vehicle_marks(r->sheet, v);
    planner_set_vehicle_marks(r->sheet, v, marks | PLANNER_MAX_DURATION | PLANNER_REST | PLANNER_REST_AT_HOME);
    if (one_in(2))
        planner_set_vehicle_rest_duration(r->sheet, v, 1 + draw(9));
    put_beside(vehicle + PLANNER_VEHICLE_EARLIEST, round + PLANNER_ROUND_DURATION, 1e9);
    put_beside(vehicle + PLANNER_VEHICLE_LATEST, round + PLANNER_ROUND_DURATION, 1e9);
    put_beside_number(vehicle + PLANNER_VEHICLE_MAX_DURATION,
                      planner_get_f64(round + PLANNER_ROUND_DURATION) + planner_vehicle_rest_duration(r->sheet, v), 1e12);
}

/* A round's vehicle that just carries it, reaches its end, or has its rest then, at the first stop or at home. */
static inline void fit_vehicle(const struct reading *r, unsigned rounds)
{
    unsigned k = draw(rounds), v = vehicle_by_id(r, planner_round_id(r->plan, k));
    const uint8_t *round = round_record(r->plan, k), *first = stop_record(r, planner_round_first(r->plan, k));
    uint8_t *vehicle = vehicle_of(r->sheet, v);
    uint32_t marks = planner_vehicle_marks(r->sheet, v);
    int32_t load = planner_round_load(r->plan, k);
    switch (draw(5)) {
    case 0: planner_set_vehicle_capacity(r->sheet, v, load - (load > 0 && one_in(2))); break;
    case 1:
        planner_set_vehicle_marks(r->sheet, v, marks | PLANNER_MAX_DISTANCE);
        put_beside(vehicle + PLANNER_VEHICLE_MAX_DISTANCE, round + PLANNER_ROUND_DISTANCE, 1e12);
        break;
    case 2:
        planner_set_vehicle_marks(r->sheet, v, marks | PLANNER_MAX_DURATION);
        put_beside(vehicle + PLANNER_VEHICLE_MAX_DURATION, round + PLANNER_ROUND_DURATION, 1e12);
        break;
    case 3: fit_home(r, v, round); break;
    default:
        planner_set_vehicle_marks(r->sheet, v, marks | PLANNER_REST);
        put_beside(vehicle + PLANNER_VEHICLE_EARLIEST, round + PLANNER_ROUND_DURATION, 1e9);
        put_beside(vehicle + PLANNER_VEHICLE_LATEST,
                   one_in(2) ? round + PLANNER_ROUND_DURATION : first + PLANNER_STOP_ARRIVAL, 1e9);
        break;
    }
}

/* A way home by which a round ends at a whole number of the tariff's units, of distance or of duration, or takes as long as
   another round does when it is rounded up. */
static inline void fit_units(struct sheet *s, const struct reading *r, unsigned rounds)
{
    unsigned k = draw(rounds), last = planner_round_first(r->plan, k), next;
    unsigned depot = planner_vehicle_depot(s->bytes, vehicle_by_id(r, planner_round_id(r->plan, k)));
    while ((next = next_of(r, r->plan, last)) != 0)
        last = next;
    int by_time = one_in(2), of_times = by_time && planner_time_table(s->bytes);
    uint8_t *home = s->bytes + (of_times ? planner_time_at(s->bytes, last, depot) : planner_distance_at(s->bytes, last, depot));
    double figure = by_time ? planner_round_duration(r->plan, k) : planner_round_distance(r->plan, k);
    double units = (by_time ? 900 : 1000) * (1.0 + draw(4));
    double as_long = (double)begun_units(planner_round_duration(r->plan, draw(rounds)), 1);
    double fitted = planner_get_f64(home) + ((by_time && one_in(2) ? as_long : units) - figure);
    if (fitted >= 0.0)
        put_beside_number(home, fitted, MOST_LEG);
}

/* A stop set aside whose lone round just keeps what is asked of it, or just does not. There is a vehicle. */
static inline void fit_aside(const struct reading *r)
{
    unsigned stop = planner_plan_aside(r->plan);
    for (unsigned k = draw(r->aside); k > 0; k--)
        stop = next_of(r, r->plan, stop);
    unsigned v = tried_last(r, stop), depot = planner_vehicle_depot(r->sheet, v);
    uint8_t *vehicle = vehicle_of(r->sheet, v), *row = row_of(r->sheet, stop);
    uint32_t marks = planner_vehicle_marks(r->sheet, v);
    double ends[2], arrival = planner_time(r->sheet, depot, stop), returned = back_from(r, v, stop, arrival);
    double start = arrival < planner_vehicle_earliest(r->sheet, v) ? planner_vehicle_earliest(r->sheet, v) : arrival;
    unsigned count = lone_ends(r, v, stop, ends);
    double end = count > 0 ? ends[draw(count)] : returned;
    int32_t demand = planner_row_demand(r->sheet, stop);
    switch (draw(7)) {
    case 0: planner_set_vehicle_capacity(r->sheet, v, demand - (demand > 0 && one_in(2))); break;
    case 1:
        planner_set_row_marks(r->sheet, stop, planner_row_marks(r->sheet, stop) | PLANNER_WINDOW);
        put_beside_number(row + PLANNER_ROW_DUE,
                          one_in(2) ? arrival : start + planner_vehicle_rest_duration(r->sheet, v), 1e9);
        break;
    case 2:
        planner_set_vehicle_marks(r->sheet, v, marks | PLANNER_MAX_DISTANCE);
        put_beside_number(vehicle + PLANNER_VEHICLE_MAX_DISTANCE, lone_distance(r, v, stop), 1e12);
        break;
    case 3:
        planner_set_vehicle_marks(r->sheet, v, marks | PLANNER_MAX_DURATION);
        put_beside_number(vehicle + PLANNER_VEHICLE_MAX_DURATION, end, 1e12);
        break;
    case 4:
        planner_set_row_marks(r->sheet, depot, planner_row_marks(r->sheet, depot) | PLANNER_WINDOW);
        put_beside_number(row_of(r->sheet, depot) + PLANNER_ROW_DUE, end, 1e9);
        break;
    case 5:
        planner_set_vehicle_marks(r->sheet, v, marks | PLANNER_REST);
        put_beside_number(vehicle + PLANNER_VEHICLE_EARLIEST, returned, 1e9);
        break;
    default:
        planner_set_vehicle_marks(r->sheet, v, marks | PLANNER_REST);
        put_beside_number(vehicle + PLANNER_VEHICLE_LATEST, one_in(2) ? start : returned, 1e9);
        break;
    }
}

static inline void fit(struct sheet *s, const struct reading *r)
{
    unsigned rounds = planner_plan_rounds(r->plan);
    if (r->aside > 0 && r->vehicles > 0 && one_in(3))
        fit_aside(r);
    else if (rounds > 0 && one_in(6))
        fit_units(s, r, rounds);
    else if (rounds > 0 && one_in(2))
        fit_vehicle(r, rounds);
    else if (r->rows > r->depots)
        fit_stop(s, r);
}

static inline void mutate(struct sheet *s)
{
    typedef void mutation(struct sheet *);
    static mutation *const by_form[] = {change_row, change_row, change_vehicle, change_vehicle, repeat_row,
                                        repeat_vehicle, change_leg, change_leg, change_legs_of_row, turn_legs,
                                        lay_legs, scale_legs, change_method, change_counts};
    static mutation *const by_bytes[] = {change_header, change_length, change_bytes};
    if (!laid_out(s) || (bold && one_in(8)))
        by_bytes[draw(sizeof by_bytes / sizeof by_bytes[0])](s);
    else
        by_form[draw(sizeof by_form / sizeof by_form[0])](s);
}

#endif
