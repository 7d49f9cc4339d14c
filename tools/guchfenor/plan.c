/* plan and limit: the calls of the proved library, with files around them. */
#include <string.h>

#include "faults.h"
#include "files.h"
#include "numbers.h"

/* Plans of every header's rows, those that are refused too. */
static uint8_t plan_out[PLANNER_PLAN_BYTES(UINT16_MAX)];

static int run_plan(const struct call *call)
{
    struct file sheet;
    if (read_file(&sheet, call->word[0]) != DONE)
        return UNUSABLE;
    size_t plan_len = plan_bytes_of(sheet.bytes, sheet.len);
    uint32_t answer = plan_rounds(sheet.bytes, sheet.len, plan_out, plan_len);
    if (answer != PLANNER_ACCEPTED)
        return turned_back(answer, call->word[0], NULL);
    return write_bytes(call->out, plan_out, plan_len);
}

static int run_limit(const struct call *call)
{
    struct file sheet, plan;
    struct word number = {call->word[0], strlen(call->word[0])};
    int64_t greatest;
    if (!read_whole(number, 0, UINT32_MAX, &greatest)) {
        tell("N has to be a whole number from 0 to 4294967295, not %s", call->word[0]);
        return UNUSABLE;
    }
    if (read_files(&sheet, call->word[1], &plan, call->word[2]) != DONE)
        return UNUSABLE;
    size_t plan_len = plan_bytes_of(sheet.bytes, sheet.len);
    uint32_t answer = limit_rounds(sheet.bytes, sheet.len, plan.bytes, plan.len, (uint32_t)greatest, plan_out, plan_len);
    if (answer != PLANNER_ACCEPTED)
        return turned_back(answer, call->word[1], call->word[2]);
    return write_bytes(call->out, plan_out, plan_len);
}

const struct command plan_command = {
    "plan", "plan SHEET [-o PLAN]", "plan the rounds of a sheet", 1, 1, TAKES_OUT, run_plan,
    "Reads a sheet and writes its plan, to standard output or to PLAN. The rounds are\n"
    "made by the method that the sheet names. A sheet that the planner turns back is\n"
    "told as `refused N: ..` on standard error, and nothing is written.\n"};

const struct command limit_command = {
    "limit", "limit N SHEET PLAN [-o PLAN]", "bring a plan within N rounds", 3, 3, TAKES_OUT, run_limit,
    "Reads a sheet of one depot and a plan of it, and writes a plan of at most N rounds,\n"
    "to standard output or to the PLAN after -o. While there are too many rounds, the\n"
    "one of least load is dropped and its stops go where they cost least; what fits\n"
    "nowhere is set aside. What the planner turns back is told as `refused N: ..` on\n"
    "standard error, and nothing is written.\n"};
