/*
 * answered SHEET PLAN RATE RATE LEAST: bill_rounds' charges and their sum, a line each.
 * answered SHEET PLAN CREWS: the rounds with deal_rounds' crews, a line each.
 *
 * The status is 1 where it refuses.
 */
#include <inttypes.h>
#include <stdio.h>
#include <stdlib.h>

#include "planner_fields.h"

static uint8_t sheet[PLANNER_SHEET_BYTES(PLANNER_MOST_ROWS, PLANNER_MOST_VEHICLES, 1)];
static uint8_t plan[PLANNER_PLAN_BYTES(PLANNER_MOST_ROWS)], out[PLANNER_BILL_BYTES(UINT16_MAX)];

static size_t read_bytes(const char *name, uint8_t *bytes, size_t most)
{
    FILE *file = fopen(name, "rb");
    size_t len = file == NULL ? 0 : fread(bytes, 1, most, file);
    if (file != NULL)
        fclose(file);
    return len;
}

static uint32_t number(const char *word)
{
    return (uint32_t)strtoul(word, NULL, 10);
}

static int bill(size_t len, size_t plan_len, char **words)
{
    if (bill_rounds(sheet, len, plan, plan_len, number(words[0]), number(words[1]), number(words[2]), out,
                    planner_bill_bytes(plan)) != PLANNER_ACCEPTED)
        return 1;
    for (unsigned k = 0; k <= planner_plan_rounds(plan); k++)
        printf("%" PRIu64 "\n", planner_bill_charge(out, k));
    return 0;
}

static int deal(size_t len, size_t plan_len, char **words)
{
    if (deal_rounds(sheet, len, plan, plan_len, number(words[0]), out, planner_deal_bytes(plan)) != PLANNER_ACCEPTED)
        return 1;
    for (unsigned k = 0; k < planner_plan_rounds(plan); k++)
        printf("%u %u\n", k + 1, planner_deal_crew(out, k));
    return 0;
}

int main(int count, char **words)
{
    if (count != 6 && count != 4)
        return 2;
    size_t len = read_bytes(words[1], sheet, sizeof sheet), plan_len = read_bytes(words[2], plan, sizeof plan);
    return (count == 6 ? bill : deal)(len, plan_len, words + 3);
}
