#include "table.h"

#include <stdarg.h>
#include <string.h>

void begin_table(struct table *table, const char *const *names, unsigned columns)
{
    memset(table, 0, sizeof *table);
    table->columns = columns;
    for (unsigned column = 0; column < columns; column++)
        set_cell(table, column, "%s", names[column]);
    next_line(table);
}

void set_cell(struct table *table, unsigned column, const char *format, ...)
{
    va_list given;
    char *cell = table->cell[table->lines][column];
    va_start(given, format);
    vsnprintf(cell, CELL, format, given);
    va_end(given);
    if (table->lines > 0 && strlen(cell) > table->width[column])
        table->width[column] = (unsigned)strlen(cell);
}

void next_line(struct table *table)
{
    table->lines++;
}

static void print_line(FILE *out, const struct table *table, unsigned line)
{
    char text[MOST_COLUMNS * (CELL + 2) + 1] = "";
    size_t len = 0;
    for (unsigned column = 0; column < table->columns; column++) {
        unsigned width = table->width[column], name = (unsigned)strlen(table->cell[0][column]);
        if (width > 0)
            len += (size_t)snprintf(text + len, sizeof text - len, "  %*s", (int)(width > name ? width : name),
                                    table->cell[line][column]);
    }
    while (len > 0 && text[len - 1] == ' ')
        text[--len] = '\0';
    fprintf(out, "%s\n", text);
}

void print_table(FILE *out, const struct table *table)
{
    for (unsigned line = 0; line < table->lines; line++)
        print_line(out, table, line);
}
