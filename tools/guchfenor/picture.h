/* What the parts of a picture share: its measures, in pixels, its colours and its lettering. */
#ifndef PICTURE_H
#define PICTURE_H

#include "reading.h"

enum {
    SIDE = 760, /* the map, a square; the legend stands beside it */
    MARGIN = 44,
    LEGEND_X = SIDE + 24,
    WIDTH = SIDE + 370,
    COLOURS = 16
};

#define INK "#212529"
#define FAINT_INK "#57606a"
#define FAINTER_INK "#868e96"
#define ALARM "#e03131"

/* A round's own, or its crew's. Rounds are counted from 0 here. */
const char *colour_of(const struct reading *reading, unsigned round);

/* "crew 2" with something before and after it; nothing where the picture is not by crews. It lives until the next call. */
const char *crew_words(const struct reading *reading, unsigned round, const char *before, const char *after);

/* Text at a point: size, colour and anchor ("start", "middle" or "end"). */
void letter(FILE *out, double x, double y, int size, const char *fill, const char *anchor, const char *format, ...)
    LIKE_PRINTF(7, 8);

/* Text in smaller letters where it would be wider than its room. */
void fit(FILE *out, double x, double y, int size, const char *fill, int room, const char *format, ...) LIKE_PRINTF(7, 8);

/* The strips under the map, from `top` down: how high they are, and the strips themselves. */
int strips_height(const struct reading *reading);
void draw_strips(FILE *out, const struct reading *reading, int top);

/* Under the strips why stops are set aside, likewise. */
int reasons_height(const struct reading *reading);
void draw_reasons(FILE *out, const struct reading *reading, int top);

#endif
