/*
 * import_agrees [TEXTS [SEED]]: guchfenor's own reading of what is wrong with a text
 * (tools/guchfenor/solomon.c) against import_solomon, on drawn and mutated ones: the same
 * refusal, with its line and words. Every refusal has to occur. The sheet of an accepted
 * text is held to one that is made here, with guchfenor's straight lines.
 */
#define _GNU_SOURCE
#include "drawn.h"

#include "../../tools/guchfenor/numbers.h"
#include "../../tools/guchfenor/solomon.h"
#include "../c/mutate_text.h"

static struct text text;
static uint8_t sheet[MOST_IMPORT], made[MOST_IMPORT];
static unsigned long answers[PLANNER_TOO_MANY_CUSTOMERS + 1];

static void end_with_text(const char *what)
{
    FILE *file = fopen("import-fault.txt", "wb");
    if (file == NULL || fwrite(text.bytes, 1, text.len, file) != text.len || fclose(file) != 0)
        printf("import-fault.txt was not written\n");
    end(what);
}

static size_t lines_of(const struct text *t)
{
    size_t lines = 1;
    for (size_t i = 0; i < t->len; i++)
        lines += t->bytes[i] == '\n';
    return lines;
}

/* The next number of a text whose numbers are in their ranges. */
static long take_number(size_t *at)
{
    size_t len;
    long number = 0;
    *at = number_from(&text, *at, &len);
    for (size_t i = *at; i < *at + len; i++)
        number = is_digit(text.bytes[i]) ? number * 10 + (text.bytes[i] - '0') : 0;
    number = text.bytes[*at] == '-' ? -number : number;
    *at += len;
    return number;
}

/* Past the name line and the vehicle number, which may be beyond any word of the machine. */
static size_t capacity_from(void)
{
    size_t len, at = number_from(&text, line_past(&text, 0), &len);
    return at + len;
}

static void make_row(unsigned row, size_t *at)
{
    take_number(at);
    planner_set_row_x(made, row, (int32_t)take_number(at));
    planner_set_row_y(made, row, (int32_t)take_number(at));
    planner_set_row_demand(made, row, (int32_t)take_number(at));
    planner_set_row_marks(made, row, row == 0 ? PLANNER_DEPOT | PLANNER_WINDOW : PLANNER_WINDOW);
    planner_set_row_ready(made, row, (double)take_number(at));
    planner_set_row_due(made, row, (double)take_number(at));
    planner_set_row_service(made, row, (double)take_number(at));
}

/* The sheet of an accepted text of so many rows. */
static void make_imported(unsigned rows)
{
    size_t at = capacity_from();
    memset(made, 0, PLANNER_IMPORT_BYTES(rows));
    planner_set_rows(made, rows);
    planner_set_vehicles(made, 1);
    planner_set_sheet_method(made, PLANNER_INSERTION);
    planner_set_vehicle_capacity(made, 0, (int32_t)take_number(&at));
    planner_set_vehicle_cost_per_distance(made, 0, 1.0);
    for (unsigned row = 0; row < rows; row++)
        make_row(row, &at);
    for (unsigned leg = 0; leg < rows * rows; leg++) {
        unsigned a = leg / rows, b = leg % rows;
        planner_set_distance(made, a, b, straight(planner_row_x(made, a), planner_row_y(made, a), planner_row_x(made, b),
                                                  planner_row_y(made, b)));
    }
}

static void sheet_is_right(size_t len)
{
    unsigned rows = planner_rows(sheet);
    if (rows == 0 || rows > PLANNER_MOST_ROWS || len != PLANNER_IMPORT_BYTES(rows))
        end_with_text("the sheet of a text has another length than its rows ask for");
    make_imported(rows);
    if (memcmp(sheet, made, len) != 0)
        end_with_text("the sheet of a text is another");
}

/* A buffer that is too short is told last. */
static void short_is_told(int32_t answer)
{
    size_t lent = draw(answer < 0 || one_in(2) ? MOST_IMPORT : (unsigned)answer + 2);
    int32_t expected = answer > 0 && lent < (size_t)answer ? -PLANNER_BAD_LENGTH : answer;
    if (import_solomon(text.bytes, text.len, sheet, lent) != expected)
        end_with_text("another answer with a buffer of another length");
}

static void agrees(void)
{
    struct text_fault fault;
    int32_t answer = import_solomon(text.bytes, text.len, sheet, sizeof sheet);
    uint32_t refusal = planner_refusal_in(answer);
    find_text_fault(&fault, text.bytes, text.len);
    if (fault.refusal != refusal) {
        printf("guchfenor reads refusal %u, and the importer answers %u; see import-fault.txt\n", fault.refusal, refusal);
        end_with_text("guchfenor and the importer differ");
    }
    answers[refusal]++;
    if (answer > 0)
        sheet_is_right((size_t)answer);
    else if (fault.line == 0 || fault.line > lines_of(&text) || fault.what[0] == '\0')
        end_with_text("a fault without its words, or at a line that is not there");
    short_is_told(answer);
}

int main(int count, char **words)
{
    static const unsigned refusals[] = {PLANNER_ACCEPTED, PLANNER_BAD_TEXT, PLANNER_TOO_MANY_CUSTOMERS, PLANNER_BAD_ROW,
                                        PLANNER_BAD_VEHICLE};
    unsigned long all = count_of(count, words);
    for (unsigned long k = 0; k < all; k++) {
        draw_fresh_text(&text);
        while (!one_in(3))
            mutate_text(&text);
        agrees();
    }
    for (unsigned i = 0; i < sizeof refusals / sizeof refusals[0]; i++) {
        printf(i == 0 ? "%lu imported" : ", %lu refused", answers[refusals[i]]);
        if (answers[refusals[i]] == 0 && all >= 5000)
            end(", and an answer did not occur");
        if (i > 0)
            printf(" %u", refusals[i]);
    }
    printf("\n");
    return 0;
}
