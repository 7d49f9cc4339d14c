/* The figures of a plan's rounds, walked anew by the library: what a plan says of its own is not read. */
#ifndef WALK_H
#define WALK_H

#include "files.h"

struct walk {
    int there; /* whether there are figures */
    uint8_t plan[PLANNER_PLAN_BYTES(PLANNER_MOST_ROWS)];
};

/* Of a sheet and a plan that a bill or a deal was made of. There are no figures with several depots. */
void walk_anew(struct walk *walk, const struct file *sheet, const struct file *plan);

/* A figure for reading, or in full where that would look like fewer begun units than there are. */
const char *figure(double value, uint64_t begun, unsigned unit);

#endif
