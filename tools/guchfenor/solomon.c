#include "solomon.h"

#include <stdarg.h>
#include <string.h>

#include "numbers.h"

enum { ROW_NUMBERS = 7, VEHICLE_NUMBERS = 2 };
/* Of a row's numbers. */
enum { READY = 4, DUE = 5 };

struct range {
    const char *name;
    int64_t least, most;
};

/* After the row's own number. */
static const struct range ranges[ROW_NUMBERS] = {
    {NULL, 0, 0},
    {"x", -1000000, 1000000},
    {"y", -1000000, 1000000},
    {"demand", 0, 1000000},
    {"ready", 0, 1000000000},
    {"due", 0, 1000000000},
    {"service", 0, 1000000000},
};
static const struct range capacity = {"capacity", 0, INT32_MAX};

/* A text so far. */
struct text_reader {
    struct text_fault *fault;
    struct word line;
    size_t number; /* of the line */
    int has_vehicle;
    size_t rows;
};

/* ---- faults */

/* Where a refusal stands in the importer's order. */
static int place_of(unsigned refusal)
{
    switch (refusal) {
    case PLANNER_BAD_TEXT: return 1;
    case PLANNER_TOO_MANY_CUSTOMERS: return 2;
    case PLANNER_BAD_ROW: return 3;
    case PLANNER_BAD_VEHICLE: return 4;
    default: return 5;
    }
}

static void add(struct text_reader *r, unsigned refusal, const char *format, ...) LIKE_PRINTF(3, 4);

/* Kept where no fault before it is of this refusal, or of one that comes earlier. */
static void add(struct text_reader *r, unsigned refusal, const char *format, ...)
{
    va_list given;
    if (place_of(refusal) >= place_of(r->fault->refusal))
        return;
    r->fault->refusal = refusal;
    r->fault->line = r->number;
    va_start(given, format);
    vsnprintf(r->fault->what, sizeof r->fault->what, format, given);
    va_end(given);
}

/* ---- words */

static int is_digit(char c)
{
    return c >= '0' && c <= '9';
}

static int has_digit(struct word line)
{
    for (size_t i = 0; i < line.len; i++)
        if (is_digit(line.at[i]))
            return 1;
    return 0;
}

/* Takes the next word off the line; whether there is one. */
static int next_word(struct word *line, struct word *word)
{
    size_t from = 0, to;
    while (from < line->len && (line->at[from] == ' ' || line->at[from] == '\t'))
        from++;
    for (to = from; to < line->len && line->at[to] != ' ' && line->at[to] != '\t'; to++)
        continue;
    word->at = line->at + from;
    word->len = to - from;
    line->at += to;
    line->len -= to;
    return word->len > 0;
}

static int is_whole(struct word word)
{
    size_t i = word.len > 0 && word.at[0] == '-';
    if (i == word.len)
        return 0;
    while (i < word.len && is_digit(word.at[i]))
        i++;
    return i == word.len;
}

/* Of a whole number; one beyond every range and every count of rows stays just that. */
static int64_t value_of(struct word word)
{
    const int64_t beyond = INT64_C(1000000000000000);
    int negative = word.at[0] == '-';
    int64_t value = 0;
    for (size_t i = (size_t)negative; i < word.len; i++)
        value = value < beyond ? value * 10 + (word.at[i] - '0') : beyond;
    return negative ? -value : value;
}

/* ---- lines of numbers */

static void not_whole(struct text_reader *r, struct word word)
{
    if (memchr(word.at, '\r', word.len) != NULL)
        add(r, PLANNER_BAD_TEXT, "a carriage return that no line feed follows");
    else
        add(r, PLANNER_BAD_TEXT, "`%s` is not a whole number, and a line with a digit holds nothing else", quoted(word));
}

/* So many words, all of them whole numbers; the fault is told where it is otherwise. */
static int take_words(struct text_reader *r, struct word *words, unsigned count, const char *names)
{
    struct word line = r->line, word;
    unsigned found = 0;
    for (; next_word(&line, &word); found++) {
        if (!is_whole(word)) {
            not_whole(r, word);
            return 0;
        }
        if (found < count)
            words[found] = word;
    }
    if (found != count)
        add(r, PLANNER_BAD_TEXT, "%u number%s, and %u are expected: %s", found, plural(found), count, names);
    return found == count;
}

static void read_in_range(struct text_reader *r, unsigned refusal, struct word word, const struct range *range)
{
    int64_t value = value_of(word);
    if (value < range->least || value > range->most)
        add(r, refusal, "%s %s is out of range, %lld to %lld", range->name, quoted(word), (long long)range->least,
            (long long)range->most);
}

static void read_vehicle(struct text_reader *r)
{
    struct word words[VEHICLE_NUMBERS];
    r->has_vehicle = 1;
    if (take_words(r, words, VEHICLE_NUMBERS, "vehicle number and capacity"))
        read_in_range(r, PLANNER_BAD_VEHICLE, words[1], &capacity);
}

static void read_row(struct text_reader *r)
{
    struct word words[ROW_NUMBERS];
    size_t row = r->rows++;
    if (!take_words(r, words, ROW_NUMBERS, "number, x, y, demand, ready, due and service"))
        return;
    if (value_of(words[0]) != (int64_t)row)
        add(r, PLANNER_BAD_TEXT, "row %lu is expected, this one says %s", (unsigned long)row, quoted(words[0]));
    if (row == PLANNER_MOST_ROWS)
        add(r, PLANNER_TOO_MANY_CUSTOMERS, "row %lu is one too many: a sheet has room for the depot and %d customers",
            (unsigned long)row, PLANNER_MOST_ROWS - 1);
    for (unsigned i = 1; i < ROW_NUMBERS; i++)
        read_in_range(r, PLANNER_BAD_ROW, words[i], &ranges[i]);
    if (value_of(words[READY]) > value_of(words[DUE]))
        add(r, PLANNER_BAD_ROW, "ready %s is after due %s", quoted(words[READY]), quoted(words[DUE]));
}

/* ---- the text */

static void read_line(struct text_reader *r)
{
    if (r->number == 1 || !has_digit(r->line))
        return;
    if (r->has_vehicle)
        read_row(r);
    else
        read_vehicle(r);
}

/* The line that starts at `at`; where the next one does, or past the end. */
static size_t split_line(struct text_reader *r, const char *text, size_t len, size_t at)
{
    const char *feed = memchr(text + at, '\n', len - at);
    size_t end = feed != NULL ? (size_t)(feed - text) : len;
    r->line.at = text + at;
    r->line.len = end - at;
    r->line.len -= feed != NULL && end > at && text[end - 1] == '\r';
    r->number++;
    return end + 1;
}

void find_text_fault(struct text_fault *fault, const uint8_t *text, size_t len)
{
    struct text_reader r = {0};
    memset(fault, 0, sizeof *fault);
    r.fault = fault;
    for (size_t at = 0; at <= len;) {
        at = split_line(&r, (const char *)text, len, at);
        read_line(&r);
    }
    r.number -= r.number > 1 && r.line.len == 0; /* after the last line feed there is nothing to look at */
    if (!r.has_vehicle)
        add(&r, PLANNER_BAD_TEXT, "the text ends, and has no line of vehicle number and capacity after its name line");
    else if (r.rows == 0)
        add(&r, PLANNER_BAD_TEXT, "the text ends, and has no row 0, the depot");
}
