/*
 * Mutations of texts that know their form: numbers at the ends of ranges and of machine
 * words, lines more and fewer, and bytes that do not belong.
 */
#ifndef MUTATE_TEXT_H
#define MUTATE_TEXT_H

#include "mutate.h"
#include "texts.h"

/* Other bytes for those from one on; nothing where there is no room. */
static inline void replace(struct text *t, size_t from, size_t had, const void *bytes, size_t len)
{
    if (t->len - had + len > MOST_TEXT)
        return;
    memmove(t->bytes + from + len, t->bytes + from + had, t->len - from - had);
    memcpy(t->bytes + from, bytes, len);
    t->len = t->len - had + len;
}

static inline size_t any_place(const struct text *t)
{
    return draw((unsigned)t->len + 1);
}

/* The first number that starts at a byte or after it; its length is 0 where there is none. */
static inline size_t number_from(const struct text *t, size_t from, size_t *len)
{
    while (from < t->len && !is_digit(t->bytes[from]))
        from++;
    size_t past = from;
    while (past < t->len && is_digit(t->bytes[past]))
        past++;
    from -= from > 0 && from < t->len && t->bytes[from - 1] == '-';
    *len = past - from;
    return from;
}

/* A word for a number: at the end of a range, of any length, or what a word of the machine would take for a small one. */
static inline const char *draw_word(char *room, size_t most)
{
    static const char *const words[] = {"0",          "-0",         "-000",       "1",          "-1",
                                        "1000000",    "1000001",    "-1000000",   "-1000001",   "999999999",
                                        "1000000000", "1000000001", "2147483647", "2147483648", "-2147483648",
                                        "00000000000000000000000000000000000000000000000000",
                                        "-99999999999999999999999999999999999999999999999999"};
    static const char *const wraps[] = {"%u", "00%u", "42949672%u", "184467440737095516%u", "3402823669209384634633746074317682114%u"};
    /* 2^32, 2^64 and 2^128 end in 96, 16 and 56 */
    static const unsigned least[] = {0, 0, 96, 16, 56};
    unsigned which = draw(8);
    if (which >= 5)
        return words[draw(sizeof words / sizeof words[0])];
    snprintf(room, most, wraps[which], least[which] + draw(which < 2 ? 104 : 4));
    return room;
}

static inline void change_number(struct text *t)
{
    char room[64];
    size_t len, at = number_from(t, any_place(t), &len);
    const char *word = draw_word(room, sizeof room);
    if (len > 0)
        replace(t, at, len, word, strlen(word));
}

/* As a number a second time, or no more. */
static inline void repeat_number(struct text *t)
{
    size_t len, at = number_from(t, any_place(t), &len);
    if (one_in(2))
        replace(t, at, len, "", 0);
    else
        replace(t, at, 0, " 7 ", 3);
}

static inline size_t line_from(const struct text *t, size_t at)
{
    while (at > 0 && t->bytes[at - 1] != '\n')
        at--;
    return at;
}

static inline size_t line_past(const struct text *t, size_t at)
{
    while (at < t->len && t->bytes[at] != '\n')
        at++;
    return at < t->len ? at + 1 : at;
}

/* A line without a digit more; a line twice, or taken out. */
static inline void change_line(struct text *t)
{
    static const char *const lines[] = {"\n", "\r\n", "CUSTOMER\n", " \t\n", "-\n", "\r\r\n", "1.0\n", "2 3\n"};
    static uint8_t line[MOST_TEXT];
    size_t from = line_from(t, any_place(t)), len = line_past(t, from) - from;
    const char *more = lines[draw(sizeof lines / sizeof lines[0])];
    memcpy(line, t->bytes + from, len);
    switch (draw(4)) {
    case 0: replace(t, from, len, "", 0); break;
    case 1: replace(t, from, 0, line, len); break;
    default: replace(t, from, 0, more, strlen(more)); break;
    }
}

/* A byte of those that mean something, or any; in between, instead, or gone. */
static inline void change_letter(struct text *t)
{
    static const char letters[] = " \t\r\n-+.,09aZ\"\0\v";
    size_t at = any_place(t), had = at < t->len && !one_in(3);
    uint8_t byte = one_in(8) ? (uint8_t)next_random(&state) : (uint8_t)letters[draw(sizeof letters - 1)];
    replace(t, at, had, &byte, !one_in(4));
}

static inline void cut_text(struct text *t)
{
    t->len = any_place(t);
}

/* The rest of another text, from a line's start for the most part. */
static inline void join_text(struct text *t, const struct text *other)
{
    size_t to = any_place(t), from = any_place(other);
    if (!one_in(4)) {
        to = line_from(t, to);
        from = line_from(other, from);
    }
    replace(t, to, t->len - to, other->bytes + from, other->len - from);
}

static inline void mutate_text(struct text *t)
{
    typedef void mutation(struct text *);
    static mutation *const mutations[] = {change_number, change_number, change_number, change_number,
                                          repeat_number, change_line,   change_line,   change_line,
                                          change_letter, change_letter, change_letter, cut_text};
    mutations[draw(sizeof mutations / sizeof mutations[0])](t);
}

/* For the most part a few rows, at times as many as there may be and one more. */
static inline void draw_fresh_text(struct text *t)
{
    draw_text(t, one_in(40) ? PLANNER_MOST_ROWS - 2 + draw(5) : draw(9), &state);
}

#endif
