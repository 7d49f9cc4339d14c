/*
 * What is wrong with a text that import_solomon turns back, by a reading of its own: it
 * shares no code with the importer, and the tests hold the two against each other.
 */
#ifndef SOLOMON_H
#define SOLOMON_H

#include "guchfenor.h"

struct text_fault {
    unsigned refusal; /* PLANNER_ACCEPTED where nothing is wrong */
    size_t line;      /* counted from 1 */
    char what[200];
};

/* The first line with a fault of the refusal that comes first, for a buffer that is long enough. */
void find_text_fault(struct text_fault *fault, const uint8_t *text, size_t len);

#endif
