/*
 * Sheets from text, and the way back. make.c's help describes the text; this is a
 * complete one, for two depots and every word:
 *
 *     # Sheet for Monday.                     From a # on, a line is a comment.
 *     method nn_tw                            savings, insertion, nearest, nn_tw or sweep
 *     depot 0 0                               rows: depots first, then stops
 *     depot 40 0
 *     stop 10 5  demand 3  service 2          row 2
 *     stop 20 5  demand 1  window 10 40       row 3: a hard window
 *     stop 30 9  window 0 15  penalty 2.5     row 4: a soft one, late arrivals cost
 *     vehicle 7  capacity 5  cost 1  fixed 20  rest 30 45 10  home
 *     vehicle 8  capacity 9  depot 1  max-distance 200  max-duration 90
 *     legs rounded                            straight lines, to whole numbers
 *     speed 2                                 times are distances by 2
 */
#ifndef MAKER_H
#define MAKER_H

#include "faults.h"
#include "guchfenor.h"

struct made {
    uint8_t *sheet; /* freed by the caller; NULL where there is an error */
    size_t len;
    unsigned line; /* of the error */
    char error[400];
};

/* A sheet that the planner takes, or the first line that is wrong. */
void make_sheet(struct made *made, const char *text, size_t len);

/* A sheet whose header and length are right, as make reads it. Of an accepted sheet make gives the same bytes. */
void write_text(FILE *out, const uint8_t *sheet);

#endif
