/*
 * What is wrong with a sheet or with a plan, by a reading of its own: it shares no
 * code with the planner's check, and the tests hold the two against each other.
 */
#ifndef FAULTS_H
#define FAULTS_H

#include "guchfenor.h"

enum part { OF_HEADER, OF_ROW, OF_DISTANCE, OF_TIME, OF_VEHICLE, OF_PLAN };

struct fault {
    unsigned refusal;
    enum part part;
    unsigned number; /* of the row or vehicle; of a leg the row that it starts at */
    size_t at;       /* the byte in the sheet, or in the plan */
    char where[80], what[200];
};

enum { MOST_TOLD = 12 };

/* The first is the refusal. All of them are counted; only so many are kept. */
struct faults {
    struct fault list[MOST_TOLD];
    unsigned count;
};

/* For a plan buffer of plan_len bytes. Every byte string of every length has an answer: count 0 is accepted. */
void find_faults(struct faults *faults, const uint8_t *sheet, size_t len, size_t plan_len);

/* What limit_rounds and bill_rounds have against a plan in of its exact length; the sheet is accepted. */
void find_plan_faults(struct faults *faults, const uint8_t *sheet, const uint8_t *plan);

/* The number of a list's refusal. */
unsigned refusal_of(const struct faults *faults);

/* How long the plan is that goes with these bytes; 0 where there is no header. */
size_t plan_bytes_of(const uint8_t *sheet, size_t len);

#endif
