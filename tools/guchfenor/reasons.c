/* Under the strips: each reason for which stops are set aside, with its stops. */
#include "picture.h"

enum {
    HEAD = 50, /* the title */
    FOOT = 14,
    LINE = 21,
    LEFT = 32,
    INDENT = 8, /* of a reason's further lines */
    ROOM = WIDTH - LEFT - 48,
    STOPS = 16 /* in a line */
};

static unsigned reason_of(const struct reading *r, unsigned stop)
{
    return planner_stop_reason(r->plan.bytes, stop);
}

static unsigned stops_with(const struct reading *r, unsigned reason)
{
    unsigned count = 0;
    for (unsigned i = 0; i < r->asides; i++)
        count += reason_of(r, r->aside[i]) == reason;
    return count;
}

int reasons_height(const struct reading *r)
{
    unsigned lines = 0;
    for (unsigned reason = 0; reason <= PLANNER_ASIDE_LIMITED; reason++)
        lines += (stops_with(r, reason) + STOPS - 1) / STOPS;
    return lines > 0 ? HEAD + (int)lines * LINE + FOOT : 0;
}

/* Where the next reason stands. */
static int draw_reason(FILE *out, const struct reading *r, unsigned reason, int y)
{
    unsigned count = stops_with(r, reason), told = 0;
    char stops[STOPS * 4 + 1]; /* up to " 100" each */
    size_t len = 0;
    for (unsigned i = 0; i < r->asides; i++) {
        if (reason_of(r, r->aside[i]) != reason)
            continue;
        len += (size_t)snprintf(stops + len, sizeof stops - len, " %u", r->aside[i]);
        if (++told < count && told % STOPS != 0)
            continue;
        if (told <= STOPS)
            fit(out, LEFT, y, 13, INK, ROOM, "%s: stop%s%s", planner_reason_text(reason), plural(count), stops);
        else
            fit(out, LEFT + INDENT, y, 13, INK, ROOM - INDENT, "%s", stops + 1);
        y += LINE;
        len = 0;
    }
    return y;
}

void draw_reasons(FILE *out, const struct reading *r, int top)
{
    int y = top + HEAD;
    if (r->asides == 0)
        return;
    letter(out, 20, top + 24, 17, INK, "start", "Set aside");
    for (unsigned reason = 0; reason <= PLANNER_ASIDE_LIMITED; reason++)
        y = draw_reason(out, r, reason, y);
}
