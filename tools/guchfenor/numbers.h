/* Numbers as words, both ways, and straight-line distances. No locale is ever set, so a decimal point is a point. */
#ifndef NUMBERS_H
#define NUMBERS_H

#include "guchfenor.h"

/* For reading: up to three decimals, trailing zeros left out. The text lives until some more calls later. */
const char *plain(double value);

/* Shortest decimal that reads back to the same f64, or bits:HEX for what has no decimal (NaN, infinity). */
const char *exact(double value);

static inline uint64_t f64_bits(double value)
{
    uint64_t bits;
    memcpy(&bits, &value, sizeof bits);
    return bits;
}

/* A word of a text. */
struct word {
    const char *at;
    size_t len;
};

int is_word(struct word word, const char *text);

/* A word for a message: short, and printable. Like plain's, the text lives until some more calls later. */
const char *quoted(struct word word);

/* Whether the word is a number: a decimal, or bits: and 16 hexadecimal digits. */
int read_number(struct word word, double *value);

/* Whether the word is a whole number from least to most. */
int read_whole(struct word word, int64_t least, int64_t most, int64_t *value);

/* The straight line between two points, as the nearest f64; and the nearest whole number to it. */
double straight(int32_t ax, int32_t ay, int32_t bx, int32_t by);
double straight_rounded(int32_t ax, int32_t ay, int32_t bx, int32_t by);

#endif
