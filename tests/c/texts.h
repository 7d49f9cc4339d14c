/*
 * Texts of the form that import_solomon reads, drawn with small whole numbers; captions,
 * blanks and the ends of lines come as they may.
 */
#ifndef TEXTS_H
#define TEXTS_H

#include <stdio.h>

#include "sheets.h"

/* Room for the longest that is drawn, and for mutations. */
enum { MOST_TEXT = 1 << 15 };

struct text {
    uint8_t bytes[MOST_TEXT];
    size_t len;
};

static inline int is_digit(uint8_t byte)
{
    return byte >= '0' && byte <= '9';
}

static inline void add_words(struct text *t, const char *words)
{
    size_t len = strlen(words);
    if (len > MOST_TEXT - t->len)
        return;
    memcpy(t->bytes + t->len, words, len);
    t->len += len;
}

static inline void add_number(struct text *t, long number, uint64_t *state)
{
    static const char *const blanks[] = {" ", "  ", "\t", " \t", "        "};
    char digits[24];
    snprintf(digits, sizeof digits, "%ld", number);
    add_words(t, blanks[below(state, 5)]);
    add_words(t, digits);
}

static inline void end_line(struct text *t, uint64_t *state)
{
    static const char *const ends[] = {"\n", "\n", "\r\n", " \n", "\t\r\n"};
    add_words(t, ends[below(state, 5)]);
}

/* Lines without a digit, a few or none. */
static inline void add_captions(struct text *t, uint64_t *state)
{
    static const char *const captions[] = {"", "VEHICLE", "NUMBER     CAPACITY", "CUST NO.  XCOORD.", " \t", "-", "\r"};
    while (below(state, 2)) {
        add_words(t, captions[below(state, 7)]);
        end_line(t, state);
    }
}

static inline void add_row(struct text *t, unsigned row, uint64_t *state)
{
    long ready = row == 0 ? 0 : below(state, 200), due = ready + (row == 0 ? 600 : below(state, 200));
    const long numbers[] = {(long)row, small(state, 101) - 50L, small(state, 101) - 50L, small(state, 10),
                            ready,     due,                     small(state, 6)};
    for (unsigned i = 0; i < 7; i++)
        add_number(t, numbers[i], state);
}

/* Of so many rows; the last line has no end at times. */
static inline void draw_text(struct text *t, unsigned rows, uint64_t *state)
{
    t->len = 0;
    add_words(t, below(state, 2) ? "C101" : "");
    end_line(t, state);
    add_captions(t, state);
    add_number(t, small(state, 30), state);
    add_number(t, small(state, 100), state);
    for (unsigned row = 0; row < rows; row++) {
        end_line(t, state);
        if (row < 3)
            add_captions(t, state);
        add_row(t, row, state);
    }
    if (below(state, 4))
        end_line(t, state);
}

#endif
