#include "faults.h"

#include <stdarg.h>
#include <string.h>

#include "numbers.h"

/* What is being read. */
struct reader {
    struct faults *faults;
    const uint8_t *bytes;
    unsigned refusal, number;
    enum part part;
    size_t record; /* where its record starts */
    char record_name[64];
};

static void add(struct reader *r, const char *field, size_t at, const char *format, ...) LIKE_PRINTF(4, 5);

static void add(struct reader *r, const char *field, size_t at, const char *format, ...)
{
    va_list given;
    unsigned count = r->faults->count++;
    if (count >= MOST_TOLD)
        return;
    struct fault *fault = &r->faults->list[count];
    fault->refusal = r->refusal;
    fault->part = r->part;
    fault->number = r->number;
    fault->at = r->record + at;
    snprintf(fault->where, sizeof fault->where, "%s%s%s", r->record_name, r->record_name[0] && field[0] ? ", " : "", field);
    va_start(given, format);
    vsnprintf(fault->what, sizeof fault->what, format, given);
    va_end(given);
}

unsigned refusal_of(const struct faults *faults)
{
    return faults->count > 0 ? faults->list[0].refusal : PLANNER_ACCEPTED;
}

size_t plan_bytes_of(const uint8_t *sheet, size_t len)
{
    return len < PLANNER_HEADER_BYTES ? 0 : PLANNER_PLAN_BYTES(planner_rows(sheet));
}

/* ---- numbers */

/* The bits of the f64 from 0 on ascend with it; negative numbers, -0, NaN and infinity lie above. */
static int in_range(uint64_t bits, double most)
{
    return bits <= f64_bits(most);
}

static void add_number(struct reader *r, const char *field, size_t at, double most)
{
    uint64_t bits = planner_get(r->bytes + r->record + at, 8);
    double value = planner_get_f64(r->bytes + r->record + at);
    if (bits == UINT64_C(1) << 63)
        add(r, field, at, "negative zero; zero is all zero bits");
    else if (value != value)
        add(r, field, at, "no number (NaN, bits %016llX)", (unsigned long long)bits);
    else if (value < 0)
        add(r, field, at, "%s, below 0", exact(value));
    else
        add(r, field, at, "%s, above %s", value > 1e300 ? "infinite or nearly so" : exact(value), exact(most));
}

/* A field in f64: up to most; with a mark, zero bits where it is not set; not below the field before it where one is
   named. */
struct range {
    const char *field;
    size_t at;
    double most;
    uint32_t mark;
    const char *mark_name, *from;
};

static void read_range(struct reader *r, const struct range *range, uint32_t marks)
{
    const uint8_t *at = r->bytes + r->record + range->at;
    uint64_t bits = planner_get(at, 8);
    if (range->mark != 0 && !(marks & range->mark)) {
        if (bits != 0)
            add(r, range->field, range->at, "%s, and there is no mark %u (%s): an unmarked field is all zero bits",
                exact(planner_get_f64(at)), (unsigned)range->mark, range->mark_name);
        return;
    }
    if (!in_range(bits, range->most))
        add_number(r, range->field, range->at, range->most);
    else if (range->from != NULL && in_range(planner_get(at - 8, 8), range->most) && bits < planner_get(at - 8, 8))
        add(r, range->field, range->at, "%s, before %s, which is %s", exact(planner_get_f64(at)), range->from,
            exact(planner_get_f64(at - 8)));
}

static void read_whole_field(struct reader *r, const char *field, size_t at, int32_t least, int32_t most)
{
    int32_t value = planner_get_i32(r->bytes + r->record + at);
    if (value < least)
        add(r, field, at, "%ld, below %ld", (long)value, (long)least);
    if (value > most)
        add(r, field, at, "%ld, above %ld", (long)value, (long)most);
}

static uint32_t read_marks(struct reader *r, size_t at, uint32_t most, const char *names)
{
    uint32_t marks = (uint32_t)planner_get(r->bytes + r->record + at, 4);
    if (marks > most)
        add(r, "marks", at, "%lu, above %lu: marks are a sum of %s", (unsigned long)marks, (unsigned long)most, names);
    return marks;
}

/* ---- 1 to 4 */

static void read_header(struct reader *r, size_t len)
{
    r->refusal = PLANNER_BAD_HEADER;
    if (len < PLANNER_HEADER_BYTES) {
        add(r, "length", len, "%lu byte%s, and the header alone has 16", (unsigned long)len, plural(len));
        return;
    }
    if (planner_time_table(r->bytes) > 1)
        add(r, "time table", PLANNER_AT_TIME_TABLE, "%u, neither 0 nor 1", planner_time_table(r->bytes));
    for (size_t at = PLANNER_AT_SPARE; at < PLANNER_HEADER_BYTES; at++)
        if (r->bytes[at] != 0)
            add(r, "spare byte", at, "%u, not zero", r->bytes[at]);
}

static void read_counts(struct reader *r)
{
    unsigned rows = planner_rows(r->bytes), vehicles = planner_vehicles(r->bytes);
    r->refusal = PLANNER_TOO_MANY;
    if (rows > PLANNER_MOST_ROWS)
        add(r, "rows", PLANNER_AT_ROWS, "%u, above %d", rows, PLANNER_MOST_ROWS);
    if (vehicles > PLANNER_MOST_VEHICLES)
        add(r, "vehicles", PLANNER_AT_VEHICLES, "%u, above %d", vehicles, PLANNER_MOST_VEHICLES);
}

static void read_method(struct reader *r)
{
    r->refusal = PLANNER_BAD_METHOD;
    if (planner_sheet_method(r->bytes) > PLANNER_SWEEP)
        add(r, "method", PLANNER_AT_METHOD,
            "%u, above 4: 0 savings, 1 insertion, 2 nearest neighbour, 3 nn_tw, 4 sweep", planner_sheet_method(r->bytes));
}

static void read_lengths(struct reader *r, size_t len, size_t plan_len)
{
    size_t asked = planner_sheet_bytes(r->bytes), plan_asked = PLANNER_PLAN_BYTES(planner_rows(r->bytes));
    r->refusal = PLANNER_BAD_LENGTH;
    if (len != asked)
        add(r, "length", len < asked ? len : asked,
            "%lu bytes, %lu too %s: the header's %u row%s, %u vehicle%s and %s time table ask for %lu", (unsigned long)len,
            (unsigned long)(len < asked ? asked - len : len - asked), len < asked ? "few" : "many",
            planner_rows(r->bytes), plural(planner_rows(r->bytes)), planner_vehicles(r->bytes),
            plural(planner_vehicles(r->bytes)), planner_time_table(r->bytes) ? "a" : "no", (unsigned long)asked);
    if (plan_len == plan_asked)
        return;
    r->part = OF_PLAN;
    add(r, "length of the plan", plan_len < plan_asked ? plan_len : plan_asked,
        "%lu bytes, and a plan of %u rows has %lu", (unsigned long)plan_len, planner_rows(r->bytes),
        (unsigned long)plan_asked);
}

/* ---- 5: rows */

static const struct range row_ranges[] = {
    {"service", PLANNER_ROW_SERVICE, 1e9, 0, NULL, NULL},
    {"ready", PLANNER_ROW_READY, 1e9, PLANNER_WINDOW, "window", NULL},
    {"due", PLANNER_ROW_DUE, 1e9, PLANNER_WINDOW, "window", "ready"},
    {"penalty", PLANNER_ROW_PENALTY, 1e6, PLANNER_PENALTY, "penalty", NULL},
};

static void read_row(struct reader *r, unsigned row)
{
    r->refusal = PLANNER_BAD_ROW;
    r->part = OF_ROW;
    r->number = row;
    r->record = planner_row_at(row);
    snprintf(r->record_name, sizeof r->record_name, "row %u", row);
    read_whole_field(r, "horizontal coordinate", PLANNER_ROW_X, -1000000, 1000000);
    read_whole_field(r, "vertical coordinate", PLANNER_ROW_Y, -1000000, 1000000);
    read_whole_field(r, "demand", PLANNER_ROW_DEMAND, 0, 1000000);
    uint32_t marks = read_marks(r, PLANNER_ROW_MARKS, 7, "1 depot, 2 window and 4 penalty");
    for (size_t i = 0; i < sizeof row_ranges / sizeof *row_ranges; i++)
        read_range(r, &row_ranges[i], marks);
}

/* ---- 6: legs */

static void read_legs(struct reader *r, const char *table, enum part part, size_t at)
{
    unsigned rows = planner_rows(r->bytes);
    r->refusal = PLANNER_BAD_MATRIX;
    r->part = part;
    for (unsigned leg = 0; leg < rows * rows; leg++) {
        r->record = at + (size_t)PLANNER_LEG_BYTES * leg;
        if (in_range(planner_get(r->bytes + r->record, 8), 1e9))
            continue;
        r->number = leg / rows;
        snprintf(r->record_name, sizeof r->record_name, "%s from row %u to row %u", table, leg / rows, leg % rows);
        add_number(r, "", 0, 1e9);
    }
}

/* ---- 7: vehicles */

static const struct range vehicle_ranges[] = {
    {"cost per distance", PLANNER_VEHICLE_COST_PER_DISTANCE, 1e6, 0, NULL, NULL},
    {"fixed cost", PLANNER_VEHICLE_FIXED_COST, 1e9, 0, NULL, NULL},
    {"max distance", PLANNER_VEHICLE_MAX_DISTANCE, 1e12, PLANNER_MAX_DISTANCE, "max distance", NULL},
    {"max duration", PLANNER_VEHICLE_MAX_DURATION, 1e12, PLANNER_MAX_DURATION, "max duration", NULL},
    {"earliest", PLANNER_VEHICLE_EARLIEST, 1e9, PLANNER_REST, "rest", NULL},
    {"latest", PLANNER_VEHICLE_LATEST, 1e9, PLANNER_REST, "rest", "earliest"},
    {"rest duration", PLANNER_VEHICLE_REST_DURATION, 1e9, PLANNER_REST, "rest", NULL},
};

static void read_rate(struct reader *r)
{
    uint64_t bits = planner_get(r->bytes + r->record + PLANNER_VEHICLE_COST_PER_DISTANCE, 8);
    if (bits != 0 && bits < f64_bits(0.001))
        add(r, "cost per distance", PLANNER_VEHICLE_COST_PER_DISTANCE, "%s, neither 0 nor 0.001 or more",
            exact(planner_get_f64(r->bytes + r->record + PLANNER_VEHICLE_COST_PER_DISTANCE)));
}

static void read_id(struct reader *r)
{
    uint32_t id = planner_vehicle_id(r->bytes, r->number);
    for (unsigned other = 0; other < r->number; other++)
        if (planner_vehicle_id(r->bytes, other) == id) {
            add(r, "id", PLANNER_VEHICLE_ID, "%lu, which is vehicle %u's too", (unsigned long)id, other);
            return;
        }
}

static void read_vehicle(struct reader *r, unsigned vehicle)
{
    unsigned depots = planner_depots(r->bytes);
    r->refusal = PLANNER_BAD_VEHICLE;
    r->part = OF_VEHICLE;
    r->number = vehicle;
    r->record = planner_vehicle_at(r->bytes, vehicle);
    snprintf(r->record_name, sizeof r->record_name, "vehicle %u (id %lu)", vehicle,
             (unsigned long)planner_vehicle_id(r->bytes, vehicle));
    if (planner_vehicle_depot(r->bytes, vehicle) >= depots)
        add(r, "depot", PLANNER_VEHICLE_DEPOT, "%lu, and the sheet has %u depot%s, counted from 0",
            (unsigned long)planner_vehicle_depot(r->bytes, vehicle), depots, plural(depots));
    read_whole_field(r, "capacity", PLANNER_VEHICLE_CAPACITY, 0, INT32_MAX);
    uint32_t marks = read_marks(r, PLANNER_VEHICLE_MARKS, 15, "1 max distance, 2 max duration, 4 rest and 8 rest at home");
    if (marks & PLANNER_REST_AT_HOME && !(marks & PLANNER_REST))
        add(r, "marks", PLANNER_VEHICLE_MARKS, "%lu: mark 8 (rest at home) goes with mark 4 (rest), which is not there",
            (unsigned long)marks);
    for (size_t i = 0; i < sizeof vehicle_ranges / sizeof *vehicle_ranges; i++)
        read_range(r, &vehicle_ranges[i], marks);
    read_rate(r);
    read_id(r);
}

/* ---- all of it, in the order of the refusals */

static void read_contents(struct reader *r)
{
    unsigned rows = planner_rows(r->bytes), vehicles = planner_vehicles(r->bytes), method = planner_sheet_method(r->bytes);
    for (unsigned row = 0; row < rows; row++)
        read_row(r, row);
    read_legs(r, "distance", OF_DISTANCE, planner_distance_at(r->bytes, 0, 0));
    if (planner_time_table(r->bytes))
        read_legs(r, "time", OF_TIME, planner_time_at(r->bytes, 0, 0));
    for (unsigned vehicle = 0; vehicle < vehicles; vehicle++)
        read_vehicle(r, vehicle);
    r->refusal = PLANNER_NO_VEHICLE;
    r->part = OF_HEADER;
    r->record = 0;
    r->record_name[0] = '\0';
    if (vehicles == 0 && method != PLANNER_NEAREST_NEIGHBOR && method != PLANNER_NN_TW)
        add(r, "vehicles", PLANNER_AT_VEHICLES, "0, and method %u needs one", method);
}

void find_faults(struct faults *faults, const uint8_t *sheet, size_t len, size_t plan_len)
{
    struct reader r = {0};
    faults->count = 0;
    r.faults = faults;
    r.bytes = sheet;
    r.part = OF_HEADER;
    read_header(&r, len);
    /* past a fault of these the rest of the bytes has no place */
    if (faults->count == 0)
        read_counts(&r);
    if (faults->count == 0)
        read_method(&r);
    if (faults->count == 0)
        read_lengths(&r, len, plan_len);
    if (faults->count == 0)
        read_contents(&r);
}

/* ---- 10: a plan in */

enum met { NOWHERE, ON_A_ROUND, ASIDE };

struct chains {
    struct reader r;
    const uint8_t *sheet;
    unsigned rows, depots;
    enum met met[PLANNER_MOST_ROWS];
};

/* By the sheet's rows: those of the plan's header are not read. */
static size_t stop_record(const struct chains *c, unsigned stop)
{
    return planner_round_at(c->rows) + (size_t)PLANNER_PLAN_STOP_BYTES * stop;
}

static void follow(struct chains *c, size_t link, const char *chain, enum met met)
{
    snprintf(c->r.record_name, sizeof c->r.record_name, "%s", chain);
    for (;;) {
        unsigned stop = (unsigned)planner_get(c->r.bytes + link, 2);
        if (stop == 0)
            return;
        if (stop < c->depots || stop >= c->rows) {
            add(&c->r, "link", link, "to row %u, which is %s", stop, stop < c->rows ? "a depot" : "not there");
            return;
        }
        if (c->met[stop] != NOWHERE) {
            add(&c->r, "link", link, "to stop %u, which stands in a chain already", stop);
            return;
        }
        c->met[stop] = met;
        link = stop_record(c, stop) + PLANNER_STOP_NEXT;
    }
}

static int is_vehicle(const uint8_t *sheet, uint32_t id)
{
    for (unsigned v = 0; v < planner_vehicles(sheet); v++)
        if (planner_vehicle_id(sheet, v) == id)
            return 1;
    return 0;
}

static void follow_round(struct chains *c, unsigned k)
{
    char name[32];
    snprintf(name, sizeof name, "round %u", k + 1);
    snprintf(c->r.record_name, sizeof c->r.record_name, "%s", name);
    if (!is_vehicle(c->sheet, planner_round_id(c->r.bytes, k)))
        add(&c->r, "vehicle", planner_round_at(k) + PLANNER_ROUND_ID, "%lu, which is no vehicle's id",
            (unsigned long)planner_round_id(c->r.bytes, k));
    follow(c, planner_round_at(k) + PLANNER_ROUND_FIRST, name, ON_A_ROUND);
}

/* Of stops set aside alone: that of a stop on a round is not read. */
static void read_reasons(struct chains *c)
{
    for (unsigned stop = c->depots; stop < c->rows; stop++) {
        size_t at = stop_record(c, stop) + PLANNER_STOP_REASON;
        unsigned reason = (unsigned)planner_get(c->r.bytes + at, 2);
        if (c->met[stop] != ASIDE || reason <= PLANNER_ASIDE_LIMITED)
            continue;
        c->r.number = stop;
        snprintf(c->r.record_name, sizeof c->r.record_name, "stop %u, set aside", stop);
        add(&c->r, "reason", at, "%u, above %d", reason, PLANNER_ASIDE_LIMITED);
    }
}

static void find_missed(struct chains *c)
{
    c->r.record_name[0] = '\0';
    for (unsigned stop = c->depots; stop < c->rows; stop++)
        if (c->met[stop] == NOWHERE) {
            c->r.number = stop;
            add(&c->r, "chains", stop_record(c, stop), "none leads to stop %u", stop);
        }
}

void find_plan_faults(struct faults *faults, const uint8_t *sheet, const uint8_t *plan)
{
    struct chains c = {0};
    faults->count = 0;
    c.r.faults = faults;
    c.r.bytes = plan;
    c.r.part = OF_PLAN;
    c.r.refusal = PLANNER_BAD_PLAN;
    c.sheet = sheet;
    c.rows = planner_rows(sheet);
    c.depots = planner_depots(sheet);
    if (planner_plan_rounds(plan) > c.rows) {
        add(&c.r, "rounds", PLANNER_PLAN_ROUNDS, "%u, above the sheet's %u row%s", planner_plan_rounds(plan), c.rows,
            plural(c.rows));
        return;
    }
    for (unsigned k = 0; k < planner_plan_rounds(plan); k++)
        follow_round(&c, k);
    follow(&c, PLANNER_PLAN_ASIDE, "stops set aside", ASIDE);
    read_reasons(&c);
    find_missed(&c);
}
