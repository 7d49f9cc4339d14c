#include "walk.h"

#include <stdlib.h>
#include <string.h>

#include "numbers.h"

/* A plan that is limited to the rounds that it has comes back with its figures walked anew; the limiter takes one depot. */
void walk_anew(struct walk *walk, const struct file *sheet, const struct file *plan)
{
    walk->there = limit_rounds(sheet->bytes, sheet->len, plan->bytes, plan->len, planner_plan_rounds(plan->bytes), walk->plan,
                               plan->len)
                  == PLANNER_ACCEPTED;
}

const char *figure(double value, uint64_t begun, unsigned unit)
{
    const char *text = plain(value);
    return begun > 0 && strtod(text, NULL) <= (double)((begun - 1) * unit) ? exact(value) : text;
}
