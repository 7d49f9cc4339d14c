#include "numbers.h"

#include <stdlib.h>
#include <string.h>

enum { SLOTS = 32, SLOT_BYTES = 64, MOST_QUOTED = 40 };

static char *slot(void)
{
    static char slots[SLOTS][SLOT_BYTES];
    static unsigned next;
    return slots[next++ % SLOTS];
}

static int is_finite(double value)
{
    return value - value == 0.0;
}

static void trim_zeros(char *text)
{
    size_t len = strlen(text);
    while (len > 0 && text[len - 1] == '0')
        text[--len] = '\0';
    if (len > 0 && text[len - 1] == '.')
        text[len - 1] = '\0';
}

const char *plain(double value)
{
    char *text = slot();
    double size = value < 0 ? -value : value;
    if (value == 0)
        return "0"; /* a cost of no rounds is -0 */
    if (!is_finite(value) || size >= 1e15 || size < 0.0005) {
        snprintf(text, SLOT_BYTES, "%.6g", value);
        return text;
    }
    snprintf(text, SLOT_BYTES, "%.3f", value);
    trim_zeros(text);
    return text;
}

const char *exact(double value)
{
    char *text = slot();
    if (!is_finite(value)) {
        snprintf(text, SLOT_BYTES, "bits:%016llX", (unsigned long long)f64_bits(value));
        return text;
    }
    if (value > -1e15 && value < 1e15 && value == (double)(int64_t)value) {
        snprintf(text, SLOT_BYTES, "%.0f", value);
        return text;
    }
    for (int digits = 1; digits <= 17; digits++) {
        snprintf(text, SLOT_BYTES, "%.*g", digits, value);
        if (f64_bits(strtod(text, NULL)) == f64_bits(value))
            break;
    }
    return text;
}

int is_word(struct word word, const char *text)
{
    return strlen(text) == word.len && memcmp(word.at, text, word.len) == 0;
}

const char *quoted(struct word word)
{
    char *text = slot();
    size_t len = word.len < MOST_QUOTED ? word.len : MOST_QUOTED;
    for (size_t i = 0; i < len; i++)
        text[i] = (char)(word.at[i] >= 33 && word.at[i] < 127 ? word.at[i] : '?');
    strcpy(text + len, word.len > MOST_QUOTED ? ".." : "");
    return text;
}

static int hex_digit(char c)
{
    static const char digits[] = "0123456789abcdef0123456789ABCDEF";
    const char *at = c != '\0' ? strchr(digits, c) : NULL;
    return at == NULL ? -1 : (int)((at - digits) % 16);
}

static int read_bits(struct word word, double *value)
{
    uint64_t bits = 0;
    if (word.len != 5 + 16 || memcmp(word.at, "bits:", 5) != 0)
        return 0;
    for (size_t i = 5; i < word.len; i++) {
        int digit = hex_digit(word.at[i]);
        if (digit < 0)
            return 0;
        bits = bits << 4 | (uint64_t)digit;
    }
    memcpy(value, &bits, sizeof bits);
    return 1;
}

int read_number(struct word word, double *value)
{
    char text[SLOT_BYTES * 8], *end;
    if (read_bits(word, value))
        return 1;
    if (word.len == 0 || word.len >= sizeof text)
        return 0;
    memcpy(text, word.at, word.len);
    text[word.len] = '\0';
    /* strtod takes words too, and hexadecimal */
    if (strspn(text, "0123456789+-.eE") != word.len)
        return 0;
    *value = strtod(text, &end);
    return *end == '\0';
}

int read_whole(struct word word, int64_t least, int64_t most, int64_t *value)
{
    int negative = word.len > 0 && word.at[0] == '-';
    int64_t sum = 0;
    size_t digits = word.len - (size_t)negative;
    if (word.len == 0 || digits == 0 || digits > 12)
        return 0;
    for (size_t i = (size_t)negative; i < word.len; i++) {
        if (word.at[i] < '0' || word.at[i] > '9')
            return 0;
        sum = sum * 10 + (word.at[i] - '0');
    }
    *value = negative ? -sum : sum;
    return *value >= least && *value <= most;
}

/* ---- distances */

static uint64_t square_of(int32_t a, int32_t b)
{
    uint64_t apart = a < b ? (uint64_t)((int64_t)b - a) : (uint64_t)((int64_t)a - b);
    return apart * apart;
}

/* A root that is drawn out digit by digit: what is left over tells whether it is exact. */
struct root {
    uint64_t digits, left;
};

static void next_digit(struct root *root, uint64_t pair)
{
    uint64_t trial = root->digits << 2 | 1;
    root->left = root->left << 2 | pair;
    root->digits <<= 1;
    if (root->left >= trial) {
        root->left -= trial;
        root->digits |= 1;
    }
}

static struct root whole_root(uint64_t n)
{
    struct root root = {0, 0};
    for (int pair = 31; pair >= 0; pair--)
        next_digit(&root, n >> 2 * pair & 3);
    return root;
}

/* The f64 nearest to the root of n, ties to even: two digits more than an f64 has, and what is left. */
static double nearest_root(uint64_t n)
{
    struct root root = whole_root(n);
    int halvings = 0;
    if (n == 0)
        return 0.0;
    for (; root.digits < UINT64_C(1) << 54; halvings++)
        next_digit(&root, 0);
    uint64_t kept = root.digits >> 2, tail = root.digits & 3;
    kept += tail > 2 || (tail == 2 && (root.left != 0 || kept & 1));
    double value = (double)kept * 4.0;
    for (; halvings > 0; halvings--)
        value /= 2.0;
    return value;
}

double straight(int32_t ax, int32_t ay, int32_t bx, int32_t by)
{
    return nearest_root(square_of(ax, bx) + square_of(ay, by));
}

double straight_rounded(int32_t ax, int32_t ay, int32_t bx, int32_t by)
{
    struct root root = whole_root(square_of(ax, bx) + square_of(ay, by));
    /* left is n - digits²; above the half it exceeds digits */
    return (double)(root.digits + (root.left > root.digits));
}
