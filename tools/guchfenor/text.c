/* text: a sheet as the text that make reads. */
#include "files.h"
#include "maker.h"
#include "names.h"
#include "numbers.h"

static void write_row(FILE *out, const uint8_t *sheet, unsigned row)
{
    uint32_t marks = planner_row_marks(sheet, row);
    int depot = row < planner_depots(sheet), marked = (marks & PLANNER_DEPOT) != 0;
    fprintf(out, "%s %ld %ld", depot ? "depot" : "stop", (long)planner_row_x(sheet, row), (long)planner_row_y(sheet, row));
    if (planner_row_demand(sheet, row) != 0)
        fprintf(out, "  demand %ld", (long)planner_row_demand(sheet, row));
    if (f64_bits(planner_row_service(sheet, row)) != 0)
        fprintf(out, "  service %s", exact(planner_row_service(sheet, row)));
    if (marks & PLANNER_WINDOW)
        fprintf(out, "  window %s %s", exact(planner_row_ready(sheet, row)), exact(planner_row_due(sheet, row)));
    if (marks & PLANNER_PENALTY)
        fprintf(out, "  penalty %s", exact(planner_row_penalty(sheet, row)));
    if (marked != depot)
        fputs(depot ? "  unmarked" : "  marked", out);
    fprintf(out, "  # row %u\n", row);
}

static void write_vehicle(FILE *out, const uint8_t *sheet, unsigned v)
{
    uint32_t marks = planner_vehicle_marks(sheet, v);
    fprintf(out, "vehicle %lu  capacity %ld  cost %s", (unsigned long)planner_vehicle_id(sheet, v),
            (long)planner_vehicle_capacity(sheet, v), exact(planner_vehicle_cost_per_distance(sheet, v)));
    if (planner_vehicle_depot(sheet, v) != 0)
        fprintf(out, "  depot %lu", (unsigned long)planner_vehicle_depot(sheet, v));
    if (f64_bits(planner_vehicle_fixed_cost(sheet, v)) != 0)
        fprintf(out, "  fixed %s", exact(planner_vehicle_fixed_cost(sheet, v)));
    if (marks & PLANNER_MAX_DISTANCE)
        fprintf(out, "  max-distance %s", exact(planner_vehicle_max_distance(sheet, v)));
    if (marks & PLANNER_MAX_DURATION)
        fprintf(out, "  max-duration %s", exact(planner_vehicle_max_duration(sheet, v)));
    if (marks & PLANNER_REST)
        fprintf(out, "  rest %s %s %s", exact(planner_vehicle_earliest(sheet, v)), exact(planner_vehicle_latest(sheet, v)),
                exact(planner_vehicle_rest_duration(sheet, v)));
    if (marks & PLANNER_REST_AT_HOME)
        fputs("  home", out);
    fputc('\n', out);
}

typedef double rule(int32_t ax, int32_t ay, int32_t bx, int32_t by);

/* Whether every distance is what a rule makes of the points. */
static int goes_by(const uint8_t *sheet, rule *made)
{
    unsigned rows = planner_rows(sheet);
    for (unsigned leg = 0; leg < rows * rows; leg++) {
        unsigned a = leg / rows, b = leg % rows;
        double by_points = made(planner_row_x(sheet, a), planner_row_y(sheet, a), planner_row_x(sheet, b), planner_row_y(sheet, b));
        if (f64_bits(by_points) != f64_bits(planner_distance(sheet, a, b)))
            return 0;
    }
    return 1;
}

static void write_table(FILE *out, const uint8_t *sheet, const char *name, double (*leg)(const uint8_t *, unsigned, unsigned))
{
    unsigned rows = planner_rows(sheet);
    fprintf(out, "%s\n", name);
    for (unsigned k = 0; k < rows * rows; k++)
        fprintf(out, "%s%c", exact(leg(sheet, k / rows, k % rows)), k % rows == rows - 1 ? '\n' : ' ');
}

void write_text(FILE *out, const uint8_t *sheet)
{
    fprintf(out, "method %s\n", method_name(planner_sheet_method(sheet)));
    for (unsigned row = 0; row < planner_rows(sheet); row++)
        write_row(out, sheet, row);
    for (unsigned v = 0; v < planner_vehicles(sheet); v++)
        write_vehicle(out, sheet, v);
    if (goes_by(sheet, straight))
        fputs("legs straight\n", out);
    else if (goes_by(sheet, straight_rounded))
        fputs("legs rounded\n", out);
    else
        write_table(out, sheet, "distances", planner_distance);
    if (planner_time_table(sheet))
        write_table(out, sheet, "times", planner_time);
}

static int run_text(const struct call *call)
{
    struct file sheet;
    struct faults faults;
    if (read_file(&sheet, call->word[0]) != DONE)
        return UNUSABLE;
    find_faults(&faults, sheet.bytes, sheet.len, plan_bytes_of(sheet.bytes, sheet.len));
    if (faults.count > 0)
        tell("%s: refused %u: byte %lu: %s: %s", sheet.name, refusal_of(&faults), (unsigned long)faults.list[0].at,
             faults.list[0].where, faults.list[0].what);
    if (faults.count > 0 && refusal_of(&faults) <= PLANNER_BAD_LENGTH)
        return WRONG;
    FILE *out = open_out(call->out);
    if (out == NULL)
        return UNUSABLE;
    write_text(out, sheet.bytes);
    int status = close_out(out, call->out);
    return status == DONE && faults.count > 0 ? WRONG : status;
}

const struct command text_command = {
    "text", "text SHEET [-o TEXT]", "write a sheet as the text that make reads", 1, 1, TAKES_OUT, run_text,
    "Reads a sheet and writes it as a text, to standard output or to TEXT; `guchfenor make\n"
    "--help` describes it. Of every sheet that the planner takes, `guchfenor make` gives the\n"
    "same bytes again. A sheet that the planner turns back for a field (refusals 5 to 8) is\n"
    "written too, so that it can be mended by hand: the refusal is told, fields without\n"
    "their mark are left out, and the status is 1.\n"};
