/*
 * explain_agrees [SHEETS [SEED]]: guchfenor's own reading of what is wrong with a sheet
 * and a plan in (tools/guchfenor/faults.c) against check_sheet, limit_rounds, bill_rounds
 * and deal_rounds, on drawn and mutated ones. Every refusal has to occur, and a plan whose
 * reasons alone are wrong.
 */
#define _GNU_SOURCE
#include "drawn.h"

#include "../../tools/guchfenor/faults.h"

static struct sheet sheet;
static struct plan_in plan_in;
static uint8_t plan_out[MOST_PLAN], out[PLANNER_BILL_BYTES(UINT16_MAX)];
static unsigned long answers[PLANNER_BAD_PLAN + 1], told, reasons;

static void keep(const char *name, const uint8_t *bytes, size_t len)
{
    FILE *file = fopen(name, "wb");
    if (file == NULL || fwrite(bytes, 1, len, file) != len || fclose(file) != 0)
        printf("%s was not written\n", name);
}

static void agree(unsigned here, uint32_t planner)
{
    if (here == planner) {
        answers[here]++;
        return;
    }
    printf("explain reads refusal %u, and the planner answers %u; see explain-fault.sheet and .plan\n", here, planner);
    keep("explain-fault.sheet", sheet.bytes, sheet.len);
    keep("explain-fault.plan", plan_in.bytes, plan_in.len);
    end("explain and the planner differ");
}

/* Each fault that is told has its place in the sheet, or right after it. */
static void places_are_there(const struct faults *faults)
{
    for (unsigned k = 0; k < faults->count && k < MOST_TOLD; k++) {
        if (faults->list[k].part != OF_PLAN && faults->list[k].at > sheet.len)
            end("a fault is told at a byte that is not there");
        told++;
    }
}

static int is_accepted(void)
{
    struct faults faults;
    find_faults(&faults, sheet.bytes, sheet.len, sheet.plan_len);
    agree(refusal_of(&faults), check_sheet(sheet.bytes, sheet.len, sheet.plan_len));
    places_are_there(&faults);
    return faults.count == 0;
}

static void plan_agrees(void)
{
    struct faults faults;
    make_plan_in(&plan_in, &sheet, NULL);
    plan_in.len = PLANNER_PLAN_BYTES(rows_in(&sheet));
    plan_in.distance_rate = plan_in.duration_rate = plan_in.least = 0;
    plan_in.crews = 1;
    find_plan_faults(&faults, sheet.bytes, plan_in.bytes);
    reasons += faults.count == 1 && strstr(faults.list[0].where, "reason") != NULL;
    for (enum answer_kind kind = BILL; kind < ANSWER_KINDS; kind++) {
        plan_in.out_len[kind] = out_bytes(kind, planner_plan_rounds(plan_in.bytes));
        struct asking a = asking_with(kind, &sheet, &plan_in);
        agree(refusal_of(&faults), ask_of(&a, sheet.bytes, plan_in.bytes, out));
    }
    agree(planner_depots(sheet.bytes) > 1 ? PLANNER_SEVERAL_DEPOTS : refusal_of(&faults),
          limit_rounds(sheet.bytes, sheet.len, plan_in.bytes, plan_in.len, UINT32_MAX, plan_out, plan_in.len));
}

int main(int count, char **words)
{
    unsigned long sheets = count_of(count, words);
    for (unsigned long k = 0; k < sheets; k++) {
        draw_next(&sheet, draw(4) != 0);
        if (is_accepted())
            plan_agrees();
    }
    for (unsigned refusal = 0; refusal <= PLANNER_BAD_PLAN; refusal++) {
        printf(refusal == 0 ? "%lu accepted" : ", %lu refused", answers[refusal]);
        if (answers[refusal] == 0 && sheets >= 5000)
            end(", and a refusal did not occur");
        if (refusal > 0)
            printf(" %u", refusal);
    }
    if (reasons == 0 && sheets >= 5000)
        end(", and no reason was wrong");
    printf(", %lu of them for a reason alone; %lu faults told\n", reasons, told);
    return 0;
}
