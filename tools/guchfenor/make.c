/* make: a sheet from text, by two passes over its lines: the first counts records, the second fills them. */
#include <stdarg.h>
#include <stdlib.h>
#include <string.h>

#include "files.h"
#include "maker.h"
#include "names.h"
#include "numbers.h"

enum { MOST_IN_LINE = 128 };
enum legs { STRAIGHT, ROUNDED, GIVEN };
enum table { DISTANCES, TIMES, TABLES };

struct line {
    struct word word[MOST_IN_LINE];
    unsigned count, number;
};

struct maker {
    struct made *made;
    uint8_t *sheet;
    struct line line; /* the one being read, and its next word */
    unsigned next;
    unsigned rows, vehicles;             /* counted */
    unsigned row, vehicle;               /* filled so far */
    unsigned stops;                      /* rows so far that are stops */
    int has_method, has_legs, unmarked;  /* unmarked: row 0 has no depot mark */
    enum legs legs;
    int filling;                         /* a table whose lines are being read, or -1 */
    unsigned filled[TABLES], table_line[TABLES];
    double speed;                        /* 0: none */
    unsigned row_line[PLANNER_MOST_ROWS], vehicle_line[PLANNER_MOST_VEHICLES];
    unsigned leg_line[TABLES][PLANNER_MOST_ROWS], method_line;
};

/* ---- lines and words */

static int wrong(struct maker *m, const char *format, ...) LIKE_PRINTF(2, 3);

static int wrong(struct maker *m, const char *format, ...)
{
    va_list given;
    va_start(given, format);
    m->made->line = m->line.number > 0 ? m->line.number : 1; /* an empty text has no line */
    vsnprintf(m->made->error, sizeof m->made->error, format, given);
    va_end(given);
    return 0;
}

static int is_blank(char c)
{
    return c == ' ' || c == '\t' || c == '\r';
}

/* The words of the line that starts at `at`; where the next one starts. Words beyond the most are counted only. */
static const char *split(struct line *line, const char *at, const char *end)
{
    line->count = 0;
    line->number++;
    while (at < end && *at != '\n' && *at != '#') {
        const char *from = at;
        while (at < end && *at != '\n' && *at != '#' && !is_blank(*at))
            at++;
        if (at > from) {
            struct word word = {from, (size_t)(at - from)};
            if (line->count < MOST_IN_LINE)
                line->word[line->count] = word;
            line->count++;
        } else
            at++;
    }
    while (at < end && *at != '\n')
        at++;
    return at < end ? at + 1 : end;
}

static int first_is(const struct line *line, const char *text)
{
    return line->count > 0 && is_word(line->word[0], text);
}

static int take_word(struct maker *m, const char *expected, struct word *word)
{
    if (m->next >= m->line.count)
        return wrong(m, "expected %s, and the line ends", expected);
    *word = m->line.word[m->next++];
    return 1;
}

static int take_number(struct maker *m, const char *expected, double *value)
{
    struct word word;
    if (!take_word(m, expected, &word))
        return 0;
    return read_number(word, value) || wrong(m, "expected %s, a number, and found %s", expected, quoted(word));
}

static int take_whole(struct maker *m, const char *expected, int64_t least, int64_t most, int64_t *value)
{
    struct word word;
    if (!take_word(m, expected, &word))
        return 0;
    return read_whole(word, least, most, value)
           || wrong(m, "expected %s, a whole number from %lld to %lld, and found %s", expected, (long long)least,
                    (long long)most, quoted(word));
}

/* ---- fields by their words */

/* A word of a row or vehicle, the fields in f64 that follow it, and the mark that it sets. */
struct field {
    const char *word;
    unsigned numbers;
    const char *expected[3];
    size_t at;
    uint32_t mark;
};

static const struct field row_fields[] = {
    {"service", 1, {"a service time", NULL, NULL}, PLANNER_ROW_SERVICE, 0},
    {"window", 2, {"when the window opens", "when the window closes", NULL}, PLANNER_ROW_READY, PLANNER_WINDOW},
    {"penalty", 1, {"a penalty", NULL, NULL}, PLANNER_ROW_PENALTY, PLANNER_PENALTY},
};
static const struct field vehicle_fields[] = {
    {"cost", 1, {"a cost per distance", NULL, NULL}, PLANNER_VEHICLE_COST_PER_DISTANCE, 0},
    {"fixed", 1, {"a fixed cost", NULL, NULL}, PLANNER_VEHICLE_FIXED_COST, 0},
    {"max-distance", 1, {"a distance", NULL, NULL}, PLANNER_VEHICLE_MAX_DISTANCE, PLANNER_MAX_DISTANCE},
    {"max-duration", 1, {"a duration", NULL, NULL}, PLANNER_VEHICLE_MAX_DURATION, PLANNER_MAX_DURATION},
    {"rest", 3, {"the earliest start", "the latest start", "the rest's duration"}, PLANNER_VEHICLE_EARLIEST, PLANNER_REST},
    {"home", 0, {NULL, NULL, NULL}, 0, PLANNER_REST_AT_HOME},
};
enum { ROW_FIELDS = sizeof row_fields / sizeof *row_fields };
enum { VEHICLE_FIELDS = sizeof vehicle_fields / sizeof *vehicle_fields };

/* A record being filled: which words it has had, and its marks. */
struct record {
    uint8_t *at;
    uint32_t had, marks;
};

static int is_new(struct maker *m, struct record *record, unsigned which, struct word word)
{
    if (record->had & 1u << which)
        return wrong(m, "%s stands twice in the line", quoted(word));
    record->had |= 1u << which;
    return 1;
}

static int take_field(struct maker *m, struct record *record, const struct field *field)
{
    double value;
    for (unsigned i = 0; i < field->numbers; i++) {
        if (!take_number(m, field->expected[i], &value))
            return 0;
        planner_put_f64(record->at + field->at + 8 * i, value);
    }
    record->marks |= field->mark;
    return 1;
}

static const struct field *find_field(const struct field *fields, unsigned count, struct word word)
{
    for (unsigned i = 0; i < count; i++)
        if (is_word(word, fields[i].word))
            return &fields[i];
    return NULL;
}

/* ---- rows */

static int take_point(struct maker *m, uint8_t *row)
{
    int64_t x, y;
    if (!take_whole(m, "a horizontal coordinate", INT32_MIN, INT32_MAX, &x)
        || !take_whole(m, "a vertical coordinate", INT32_MIN, INT32_MAX, &y))
        return 0;
    planner_put_i32(row + PLANNER_ROW_X, (int32_t)x);
    planner_put_i32(row + PLANNER_ROW_Y, (int32_t)y);
    return 1;
}

enum { DEMAND_WORD = 16, MARK_WORD = 17 };

static int take_demand(struct maker *m, struct record *record)
{
    int64_t demand;
    if (!take_whole(m, "a demand", INT32_MIN, INT32_MAX, &demand))
        return 0;
    planner_put_i32(record->at + PLANNER_ROW_DEMAND, (int32_t)demand);
    return 1;
}

static int take_row_word(struct maker *m, struct record *record, int depot)
{
    struct word word;
    const struct field *field;
    take_word(m, "", &word);
    field = find_field(row_fields, ROW_FIELDS, word);
    if (field != NULL)
        return is_new(m, record, (unsigned)(field - row_fields), word) && take_field(m, record, field);
    if (is_word(word, "demand"))
        return is_new(m, record, DEMAND_WORD, word) && take_demand(m, record);
    if (is_word(word, depot ? "unmarked" : "marked")) {
        record->marks ^= PLANNER_DEPOT;
        return is_new(m, record, MARK_WORD, word);
    }
    return wrong(m, "expected demand, service, window, penalty or %s, and found %s", depot ? "unmarked" : "marked",
                 quoted(word));
}

/* A row's word has to say what the row is to the planner, which goes by leading marks. */
static int row_is_what_it_says(struct maker *m, int depot, uint32_t marks)
{
    int marked = (marks & PLANNER_DEPOT) != 0;
    if (depot && m->row > 0 && (m->stops > 0 || m->unmarked))
        return wrong(m, "depots come before all stops%s", m->unmarked ? ", and after an unmarked one there is no other" : "");
    if (!depot && m->row == 0)
        return wrong(m, "expected a depot: the first row is one");
    if (depot && !marked && m->row > 0)
        return wrong(m, "only the first depot can be unmarked");
    if (!depot && marked && m->stops == 0 && !m->unmarked)
        return wrong(m, "a marked stop next to the depots would be one: write depot");
    return 1;
}

static int take_row(struct maker *m, int depot)
{
    struct record record = {m->sheet + planner_row_at(m->row), 0, depot ? PLANNER_DEPOT : 0};
    if (m->filling >= 0)
        return wrong(m, "rows come before the tables of legs");
    if (!take_point(m, record.at))
        return 0;
    while (m->next < m->line.count)
        if (!take_row_word(m, &record, depot))
            return 0;
    if (!row_is_what_it_says(m, depot, record.marks))
        return 0;
    planner_set_row_marks(m->sheet, m->row, record.marks);
    m->unmarked |= m->row == 0 && !(record.marks & PLANNER_DEPOT);
    m->stops += !depot;
    m->row_line[m->row++] = m->line.number;
    return 1;
}

/* ---- vehicles */

enum { CAPACITY_WORD = 16, DEPOT_WORD = 17 };

static int take_vehicle_word(struct maker *m, struct record *record)
{
    struct word word;
    int64_t value;
    take_word(m, "", &word);
    const struct field *field = find_field(vehicle_fields, VEHICLE_FIELDS, word);
    if (field != NULL)
        return is_new(m, record, (unsigned)(field - vehicle_fields), word) && take_field(m, record, field);
    if (is_word(word, "capacity")) {
        if (!is_new(m, record, CAPACITY_WORD, word) || !take_whole(m, "a capacity", INT32_MIN, INT32_MAX, &value))
            return 0;
        planner_set_vehicle_capacity(m->sheet, m->vehicle, (int32_t)value);
        return 1;
    }
    if (is_word(word, "depot")) {
        if (!is_new(m, record, DEPOT_WORD, word) || !take_whole(m, "a depot's row", 0, UINT32_MAX, &value))
            return 0;
        planner_set_vehicle_depot(m->sheet, m->vehicle, (uint32_t)value);
        return 1;
    }
    return wrong(m, "expected capacity, depot, cost, fixed, max-distance, max-duration, rest or home, and found %s",
                 quoted(word));
}

static int take_vehicle(struct maker *m)
{
    struct record record = {m->sheet + planner_vehicle_at(m->sheet, m->vehicle), 0, 0};
    int64_t id;
    if (!take_whole(m, "a vehicle's id", 0, UINT32_MAX, &id))
        return 0;
    planner_set_vehicle_id(m->sheet, m->vehicle, (uint32_t)id);
    planner_set_vehicle_cost_per_distance(m->sheet, m->vehicle, 1.0);
    while (m->next < m->line.count)
        if (!take_vehicle_word(m, &record))
            return 0;
    if (!(record.had & 1u << CAPACITY_WORD))
        return wrong(m, "a vehicle needs its capacity");
    planner_set_vehicle_marks(m->sheet, m->vehicle, record.marks);
    m->vehicle_line[m->vehicle++] = m->line.number;
    return 1;
}

/* ---- legs */

static const char *const table_names[TABLES] = {"distances", "times"};

static int ends(struct maker *m)
{
    return m->next == m->line.count || wrong(m, "expected the end of the line, and found %s", quoted(m->line.word[m->next]));
}

static int take_legs(struct maker *m)
{
    struct word word;
    if (m->has_legs)
        return wrong(m, "legs or distances stand twice");
    if (!take_word(m, "straight or rounded", &word))
        return 0;
    if (!is_word(word, "straight") && !is_word(word, "rounded"))
        return wrong(m, "expected straight or rounded, and found %s", quoted(word));
    m->legs = is_word(word, "straight") ? STRAIGHT : ROUNDED;
    m->has_legs = 1;
    return ends(m);
}

static int take_speed(struct maker *m)
{
    if (m->table_line[TIMES] > 0)
        return wrong(m, "speed and times: there can be one of them");
    if (!take_number(m, "a speed", &m->speed))
        return 0;
    if (!(m->speed > 0))
        return wrong(m, "expected a speed above 0");
    m->table_line[TIMES] = m->line.number;
    return ends(m);
}

static int begin_table(struct maker *m, enum table table)
{
    if (table == DISTANCES && m->has_legs)
        return wrong(m, "legs or distances stand twice");
    if (m->table_line[table] > 0)
        return wrong(m, "%s stand twice, or times beside a speed", table_names[table]);
    if (m->row < m->rows)
        return wrong(m, "rows come before the tables of legs");
    m->table_line[table] = m->line.number;
    m->filling = (int)table;
    if (table == DISTANCES) {
        m->has_legs = 1;
        m->legs = GIVEN;
    }
    return ends(m);
}

static int take_table_line(struct maker *m)
{
    int table = m->filling;
    double value;
    if (table < 0)
        return wrong(m, "expected a word, and found a number: tables begin with a line distances or times");
    unsigned from = m->filled[table]++;
    if (from >= m->rows)
        return wrong(m, "a line of %s too many: there are %u rows", table_names[table], m->rows);
    if (m->line.count != m->rows)
        return wrong(m, "expected %u numbers, one for each row, and found %u", m->rows, m->line.count);
    m->leg_line[table][from] = m->line.number;
    for (unsigned to = 0; to < m->rows; to++) {
        if (!take_number(m, table == DISTANCES ? "a distance" : "a time", &value))
            return 0;
        if (table == DISTANCES)
            planner_set_distance(m->sheet, from, to, value);
        else
            planner_set_time(m->sheet, from, to, value);
    }
    return 1;
}

/* ---- lines */

static int take_method(struct maker *m)
{
    struct word word;
    if (m->has_method)
        return wrong(m, "method stands twice");
    if (!take_word(m, "savings, insertion, nearest, nn_tw or sweep", &word))
        return 0;
    for (unsigned method = 0; method < METHODS; method++)
        if (is_word(word, method_name(method))) {
            planner_set_sheet_method(m->sheet, method);
            m->has_method = 1;
            m->method_line = m->line.number;
            return ends(m);
        }
    return wrong(m, "expected savings, insertion, nearest, nn_tw or sweep, and found %s", quoted(word));
}

static int starts_number(struct word word)
{
    return word.len > 0 && (strchr("0123456789+-.", word.at[0]) != NULL || (word.len > 5 && memcmp(word.at, "bits:", 5) == 0));
}

static int take_line(struct maker *m)
{
    const struct line *line = &m->line;
    if (line->count == 0)
        return 1;
    if (line->count > MOST_IN_LINE)
        return wrong(m, "%u words in a line", line->count);
    m->next = 0;
    if (starts_number(line->word[0]))
        return take_table_line(m);
    m->next = 1;
    if (first_is(line, "depot") || first_is(line, "stop"))
        return take_row(m, first_is(line, "depot"));
    if (first_is(line, "vehicle"))
        return take_vehicle(m);
    if (first_is(line, "method"))
        return take_method(m);
    if (first_is(line, "legs"))
        return take_legs(m);
    if (first_is(line, "speed"))
        return take_speed(m);
    if (first_is(line, "distances") || first_is(line, "times"))
        return begin_table(m, first_is(line, "times") ? TIMES : DISTANCES);
    return wrong(m, "expected method, depot, stop, vehicle, legs, speed, distances or times, and found %s",
                 quoted(line->word[0]));
}

/* ---- passes */

static int count_line(struct maker *m, unsigned *time_table)
{
    m->rows += first_is(&m->line, "depot") || first_is(&m->line, "stop");
    m->vehicles += (unsigned)first_is(&m->line, "vehicle");
    *time_table |= (unsigned)(first_is(&m->line, "times") || first_is(&m->line, "speed"));
    if (m->rows > PLANNER_MOST_ROWS)
        return wrong(m, "a row too many: a sheet has up to %d", PLANNER_MOST_ROWS);
    return m->vehicles <= PLANNER_MOST_VEHICLES
           || wrong(m, "a vehicle too many: a sheet has up to %d", PLANNER_MOST_VEHICLES);
}

static int count_records(struct maker *m, const char *text, const char *end)
{
    unsigned time_table = 0;
    for (const char *at = text; at < end;) {
        at = split(&m->line, at, end);
        if (!count_line(m, &time_table))
            return 0;
    }
    m->line.number = 0;
    m->made->len = PLANNER_SHEET_BYTES(m->rows, m->vehicles, time_table);
    m->sheet = calloc(m->made->len, 1);
    if (m->sheet == NULL)
        return wrong(m, "no memory is left");
    planner_set_rows(m->sheet, m->rows);
    planner_set_vehicles(m->sheet, m->vehicles);
    planner_set_time_table(m->sheet, time_table);
    return 1;
}

static int tables_are_whole(struct maker *m)
{
    for (int table = 0; table < TABLES; table++)
        if (m->table_line[table] > 0 && !(table == TIMES && m->speed > 0) && m->filled[table] < m->rows) {
            m->line.number = m->table_line[table];
            return wrong(m, "expected %u lines of %s, one for each row, and found %u", m->rows, table_names[table],
                         m->filled[table]);
        }
    return 1;
}

static void lay_leg(struct maker *m, unsigned a, unsigned b)
{
    int32_t ax = planner_row_x(m->sheet, a), ay = planner_row_y(m->sheet, a);
    int32_t bx = planner_row_x(m->sheet, b), by = planner_row_y(m->sheet, b);
    if (m->legs != GIVEN)
        planner_set_distance(m->sheet, a, b, m->legs == ROUNDED ? straight_rounded(ax, ay, bx, by) : straight(ax, ay, bx, by));
    if (m->speed > 0)
        planner_set_time(m->sheet, a, b, planner_distance(m->sheet, a, b) / m->speed);
}

static void lay_legs(struct maker *m)
{
    for (unsigned leg = 0; leg < m->rows * m->rows; leg++)
        lay_leg(m, leg / m->rows, leg % m->rows);
}

static unsigned line_of(const struct maker *m, const struct fault *fault)
{
    switch (fault->part) {
    case OF_ROW: return m->row_line[fault->number];
    case OF_VEHICLE: return m->vehicle_line[fault->number];
    case OF_DISTANCE: return m->leg_line[DISTANCES][fault->number];
    case OF_TIME: return m->speed > 0 ? m->table_line[TIMES] : m->leg_line[TIMES][fault->number];
    default: return m->method_line;
    }
}

/* What the planner would turn back is an error of some line. */
static int is_accepted(struct maker *m)
{
    struct faults faults;
    find_faults(&faults, m->sheet, m->made->len, PLANNER_PLAN_BYTES(m->rows));
    if (faults.count == 0)
        return 1;
    m->line.number = line_of(m, &faults.list[0]);
    return wrong(m, "%s: %s", faults.list[0].where, faults.list[0].what);
}

static int fill(struct maker *m, const char *text, const char *end)
{
    for (const char *at = text; at < end;) {
        at = split(&m->line, at, end);
        if (!take_line(m))
            return 0;
    }
    if (!m->has_method)
        return wrong(m, "the text ends without a line method");
    if (!tables_are_whole(m))
        return 0;
    lay_legs(m);
    return is_accepted(m);
}

void make_sheet(struct made *made, const char *text, size_t len)
{
    static struct maker m;
    memset(&m, 0, sizeof m);
    memset(made, 0, sizeof *made);
    m.made = made;
    m.filling = -1;
    if (count_records(&m, text, text + len) && fill(&m, text, text + len))
        made->sheet = m.sheet;
    else
        free(m.sheet);
}

static int run_make(const struct call *call)
{
    struct file text;
    struct made made;
    if (read_file(&text, call->words > 0 ? call->word[0] : "-") != DONE)
        return UNUSABLE;
    if (text.more) {
        tell("%s: longer than any sheet's text", text.name);
        return WRONG;
    }
    make_sheet(&made, (const char *)text.bytes, text.len);
    if (made.sheet == NULL) {
        tell("%s: line %u: %s", text.name, made.line, made.error);
        return WRONG;
    }
    int status = write_bytes(call->out, made.sheet, made.len);
    free(made.sheet);
    return status;
}

const struct command make_command = {
    "make", "make [TEXT] [-o SHEET]", "make a sheet from a text", 0, 1, TAKES_OUT, run_make,
    "Reads a text from TEXT or standard input and writes the sheet, to standard output or\n"
    "to SHEET. Each line is one of these; from a # on it is a comment.\n\n"
    "  method NAME          savings, insertion, nearest, nn_tw or sweep\n"
    "  depot X Y ..         a row: depots first; the first row is one\n"
    "  stop X Y ..          a row; rows are numbered from 0 in the order of their lines\n"
    "    demand N             0 where it is left out, as service is\n"
    "    service T            how long the stop takes\n"
    "    window READY DUE     hard; with a penalty it is soft\n"
    "    penalty P            what a unit of lateness costs\n"
    "  vehicle ID ..        rounds are made with a depot's vehicles, in this order\n"
    "    capacity N           has to be there\n"
    "    depot ROW            0 where it is left out\n"
    "    cost C               per distance; 1 where it is left out\n"
    "    fixed F              for each round; 0 where it is left out\n"
    "    max-distance D       of a round\n"
    "    max-duration T       of a round\n"
    "    rest EARLIEST LATEST DURATION\n"
    "    home                 the rest may be taken at the depot too, on return\n"
    "  legs straight        distances are straight lines, as exact as an f64 is; so too\n"
    "                       where nothing is said of legs\n"
    "  legs rounded         straight lines, to whole numbers\n"
    "  distances            then a line for each row, with its distances to all rows\n"
    "  speed S              times are distances divided by S\n"
    "  times                then a line for each row; without times or a speed the\n"
    "                       distances serve as times\n\n"
    "X, Y, demand and capacity are whole numbers. A number is decimal, or bits: and the 16\n"
    "hexadecimal digits of an f64. The words of a row or vehicle stand in any order. Two\n"
    "words are for sheets that no person writes: `depot X Y unmarked`, for a first row\n"
    "without its depot mark, and `stop X Y marked`, for a depot mark that means nothing.\n\n"
    "A complete text:\n\n"
    "  # Two stops, one of them with a window.\n"
    "  method insertion\n"
    "  depot 0 0\n"
    "  stop 0 10   demand 1  service 5  window 10 40\n"
    "  stop 0 -10  demand 1\n"
    "  vehicle 7  capacity 2  rest 12 40 5\n"
    "  distances\n"
    "   0 10 10\n"
    "  10  0  4\n"
    "  10  4  0\n\n"
    "What the planner would turn back is an error of its line. `guchfenor text` is the way\n"
    "back: of every sheet that the planner takes it writes a text that makes the same bytes.\n"};
