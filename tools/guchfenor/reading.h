/*
 * A sheet and a plan of it, taken in whole before anything is shown: the plan's
 * chains are followed once, and only where they fit the sheet.
 */
#ifndef READING_H
#define READING_H

#include "deal.h"
#include "files.h"
#include "guchfenor.h"

/* A stop in a round. Figures are the plan's; what a plan does not hold comes from the sheet. */
struct visit {
    unsigned stop, place; /* the place is counted from 1 */
    int rested;           /* whether the round's rest stands before it */
    int has_window, is_soft;
    double ready, due;
    double arrival, free, start, departure; /* free: after the rest, if one stands here */
    double waiting, late;
    long load;
};

struct round {
    uint32_t id;
    unsigned vehicle, depot, rest_place;
    unsigned first, stops; /* its visits */
    int rests_home;        /* whether its rest stands at the depot, after the last stop */
    long load, capacity;
    int closes, is_late; /* whether its depot has a window, and it is back after the due */
    double due;          /* of the depot */
    double distance, duration, lateness, lateness_cost, rest_start, rest_end;
    double returned; /* the duration, or when a rest at the depot could start */
};

struct reading {
    struct file sheet, plan;
    unsigned rows, depots, vehicles, method, rounds, visits, asides;
    double cost;
    struct round round[PLANNER_MOST_ROWS];
    struct visit visit[PLANNER_MOST_ROWS];
    unsigned aside[PLANNER_MOST_ROWS];
    /* Per row: the round from 1 on, 0 for none, and its visit. */
    unsigned round_of[PLANNER_MOST_ROWS], visit_of[PLANNER_MOST_ROWS];
    unsigned strange; /* figures of the plan that are not what the sheet gives */
    struct deal deal; /* where the picture is by crews, else of none */
};

/* Reads both files. DONE, or what is wrong was told. Where figures alone differ from what the sheet gives, that is told
   too, the first of them, and the answer is DONE: see `strange`. */
int take_reading(struct reading *reading, const struct call *call);

/* Depots that are there: a sheet of no rows has none. */
unsigned depots_there(const struct reading *reading);

#endif
