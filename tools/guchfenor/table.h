/* A table in plain text: columns of right-aligned cells under their names. */
#ifndef TABLE_H
#define TABLE_H

#include "guchfenor.h"

enum { MOST_COLUMNS = 10, CELL = 72 };

/* One line for the names, then a line each for as many rounds as a plan may have, or for the stops of a round and a rest at
   the depot. */
struct table {
    char cell[PLANNER_MOST_ROWS + 1][MOST_COLUMNS][CELL];
    unsigned columns, lines, width[MOST_COLUMNS];
};

void begin_table(struct table *table, const char *const *names, unsigned columns);

/* A cell of the line that is being made. */
void set_cell(struct table *table, unsigned column, const char *format, ...) LIKE_PRINTF(3, 4);

/* That line is made. */
void next_line(struct table *table);

/* A column without content is left out. */
void print_table(FILE *out, const struct table *table);

#endif
