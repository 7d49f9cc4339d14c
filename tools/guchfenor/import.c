/* import: the call of the proved importer, with files around it; solomon.c says what is wrong with a text. */
#include "files.h"
#include "solomon.h"

static int refused(const struct file *text, uint32_t answer)
{
    struct text_fault fault;
    find_text_fault(&fault, text->bytes, text->len);
    if (fault.refusal != answer)
        return differs(text->name, fault.refusal, answer);
    fprintf(stderr, "refused %lu: %s\n", (unsigned long)answer, planner_refusal_text(answer));
    tell("%s: line %lu: %s", text->name, (unsigned long)fault.line, fault.what);
    return WRONG;
}

static int run_import(const struct call *call)
{
    static uint8_t sheet[PLANNER_IMPORT_BYTES(PLANNER_MOST_ROWS)];
    struct file text;
    if (read_file(&text, call->word[0]) != DONE)
        return UNUSABLE;
    if (text.more) {
        tell("%s: longer than the %d bytes that this program reads", text.name, MOST_FILE);
        return WRONG;
    }
    int32_t answer = import_solomon(text.bytes, text.len, sheet, sizeof sheet);
    if (answer < 0)
        return refused(&text, planner_refusal_in(answer));
    return write_bytes(call->out, sheet, (size_t)answer);
}

const struct command import_command = {
    "import", "import TEXT [-o SHEET]", "import a text in the form of Solomon's instances", 1, 1, TAKES_OUT, run_import,
    "Reads a text in the form in which Solomon's instances of 1987 are published and writes\n"
    "its sheet, to standard output or to SHEET.\n\n"
    "  BRICKWORKS                                   the name: the first line, whatever it holds\n"
    "  VEHICLE                                      lines without a digit are skipped\n"
    "  NUMBER CAPACITY\n"
    "    3      20                                  vehicle number, not used, and capacity\n"
    "  CUST NO. X Y DEMAND READY DUE SERVICE\n"
    "    0   0   0   0    0 240  0                  row 0, the depot\n"
    "    1   3   4   8   30  90 15                  row 1, and so on: up to 100 customers\n"
    "    2  -6   8   5    0 120 10\n\n"
    "Every number is whole and may carry a minus; spaces or tabs part them; lines end in LF\n"
    "or CR LF. A line with a digit holds nothing but numbers.\n\n"
    "The sheet's method is insertion. Every row has its window; rounds are home by the\n"
    "depot's due. There is one vehicle with that capacity, id 0 and cost 1. Distances are\n"
    "straight lines, as exact as an f64 is, and serve as times.\n\n"
    "A text that is turned back is told as `refused N: ..` on standard error, with the line\n"
    "that is wrong, and nothing is written: 11 for another form, 12 for too many customers,\n"
    "5 for a row's number out of range, 7 for such a capacity. The line is found by code of\n"
    "this program's own: should that find another refusal than the importer, it says so\n"
    "loudly and ends with status 2.\n"};
