/* A plan's rounds dealt to crews, by the library. */
#ifndef DEAL_H
#define DEAL_H

#include "walk.h"

struct deal {
    uint32_t crews;
    /* Of each round from 1; for every header's rounds, those that are refused too. */
    uint8_t crew[PLANNER_DEAL_BYTES(UINT16_MAX)];
    unsigned rounds;
    struct walk walk;
};

/* A number of crews, which may be out of range. DONE, or UNUSABLE and it was told. */
int read_crews(uint32_t *crews, const char *word);

/* The library's answer. */
uint32_t deal_plan(struct deal *deal, uint32_t crews, const struct file *sheet, const struct file *plan);

/* Says that it refused so many crews, or the sheet with the plan. WRONG. */
int deal_refused(uint32_t answer, uint32_t crews, const char *sheet, const char *plan);

/* What a round counts: its duration in whole units, rounded up; 0 where there are no figures. */
uint64_t counted(const struct deal *deal, unsigned round);

/* How many rounds a crew has, and what they count together. */
unsigned rounds_of(const struct deal *deal, unsigned crew, uint64_t *total);

#endif
