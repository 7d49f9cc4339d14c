/* The strips under the map: what each round does over time, on one scale. */
#include "numbers.h"
#include "picture.h"

enum {
    LEFT = 232, /* the axis, after the rounds' names */
    RIGHT = WIDTH - 48,
    NAME_ROOM = LEFT - 32 - 10,
    HEAD = 74, /* title, key and the upper scale */
    FOOT = 36,
    LANE = 10, /* one window above another */
    BAR = 14,
    LABEL = 10, /* one line of stop numbers under the bars */
    LABEL_LINES = 3,
    PAD = 10,
    LEAST = 34 /* two lines for a round's name */
};

struct strips {
    FILE *out;
    const struct reading *r;
    double end, step; /* of the axis, and between its ticks; 0 where nothing takes time */
    /* Per visit: the lane of its window and the line of its number; per round: how many there are of each. */
    unsigned lane[PLANNER_MOST_ROWS], line[PLANNER_MOST_ROWS];
    unsigned lanes[PLANNER_MOST_ROWS], lines[PLANNER_MOST_ROWS];
};

static struct strips strips;

/* ---- the scale */

static double later(double a, double b)
{
    return a > b ? a : b;
}

static double axis_end(const struct reading *r)
{
    double end = 0;
    for (unsigned k = 0; k < r->rounds; k++)
        end = later(end, r->round[k].duration);
    for (unsigned i = 0; i < r->visits; i++)
        end = later(end, later(r->visit[i].departure, r->visit[i].start));
    return end;
}

/* 1, 2 or 5 of some power of ten, so that there are at most twelve ticks. */
static double axis_step(double end)
{
    double power = 1;
    if (!(end > 0))
        return 0;
    for (int k = 0; k < 340 && power * 10 > end; k++)
        power /= 10;
    for (int k = 0; k < 340 && power * 10 <= end; k++)
        power *= 10;
    return end / power <= 2.4 ? power / 5 : end / power <= 6 ? power / 2 : power;
}

static double x_of(double time)
{
    double part = strips.end > 0 ? time / strips.end : 0;
    part = part < 0 ? 0 : part > 1 ? 1 : part;
    return LEFT + part * (RIGHT - LEFT);
}

/* ---- windows in lanes, so that none covers another */

struct span {
    double from, to;
};

static int width_of(unsigned number)
{
    return number < 10 ? 5 : number < 100 ? 10 : 15;
}

/* The window, the dot of the stop and its number behind. */
static struct span span_of(const struct visit *visit)
{
    double from = x_of(visit->ready), to = x_of(visit->due), at = x_of(visit->free);
    struct span span = {from < at ? from : at, later(to, at) + 10 + width_of(visit->stop)};
    return span;
}

/* The first of so many lanes that ends before; one more where none does. */
static unsigned free_lane(const double *ends, unsigned lanes, double from)
{
    unsigned lane = 0;
    while (lane < lanes && ends[lane] > from)
        lane++;
    return lane;
}

static void deal_lanes(unsigned k)
{
    const struct round *round = &strips.r->round[k];
    double ends[PLANNER_MOST_ROWS];
    strips.lanes[k] = 0;
    for (unsigned i = round->first; i < round->first + round->stops; i++) {
        if (!strips.r->visit[i].has_window)
            continue;
        struct span span = span_of(&strips.r->visit[i]);
        unsigned lane = free_lane(ends, strips.lanes[k], span.from);
        strips.lanes[k] += lane == strips.lanes[k];
        ends[lane] = span.to;
        strips.lane[i] = lane;
    }
}

/* Numbers go under the bars; where no line has room the title has to do. */
static struct span label_of(const struct visit *visit)
{
    double half = width_of(visit->stop) / 2.0 + 1.5, x = (x_of(visit->start) + x_of(visit->departure)) / 2;
    struct span span = {x - half, x + half};
    return span;
}

static void deal_lines(unsigned k)
{
    const struct round *round = &strips.r->round[k];
    double ends[LABEL_LINES + 1];
    strips.lines[k] = 0;
    for (unsigned i = round->first; i < round->first + round->stops; i++) {
        struct span span = label_of(&strips.r->visit[i]);
        unsigned line = free_lane(ends, strips.lines[k], span.from);
        strips.lines[k] += line == strips.lines[k] && line < LABEL_LINES;
        ends[line] = span.to;
        strips.line[i] = line;
    }
}

static int strip_height(unsigned k)
{
    int height = (int)strips.lanes[k] * LANE + BAR + (int)strips.lines[k] * LABEL + 4;
    return (height > LEAST ? height : LEAST) + PAD;
}

static void measure(const struct reading *r)
{
    strips.r = r;
    strips.end = axis_end(r);
    strips.step = axis_step(strips.end);
    for (unsigned k = 0; k < r->rounds; k++) {
        deal_lanes(k);
        deal_lines(k);
    }
}

int strips_height(const struct reading *r)
{
    int height = HEAD + FOOT;
    measure(r);
    for (unsigned k = 0; k < r->rounds; k++)
        height += strip_height(k);
    return r->rounds > 0 ? height : 0;
}

/* ---- bars */

enum bar { DRIVING, WAITING, SERVICE, REST };

static void draw_box(enum bar bar, double x, double y, double width, const char *colour)
{
    double inset = bar == DRIVING ? BAR / 2.0 - 2 : bar == WAITING ? 3 : 0;
    const char *fill = bar == WAITING ? "#ffffff" : bar == REST ? INK : colour;
    fprintf(strips.out, "<rect x=\"%.1f\" y=\"%.1f\" width=\"%.1f\" height=\"%.1f\" fill=\"%s\"", x, y + inset, width,
            BAR - 2 * inset, fill);
    if (bar == DRIVING)
        fputs(" opacity=\"0.55\"", strips.out);
    if (bar == WAITING)
        fprintf(strips.out, " stroke=\"%s\" stroke-width=\"1\" stroke-dasharray=\"2 2\"", colour);
}

static void draw_bar(enum bar bar, double y, unsigned k, double from, double to, const char *what, unsigned stop)
{
    static const char *const names[] = {"driving", "waiting", "service", "rest"};
    double x = x_of(from), width = x_of(to) - x;
    if (!(to > from) && bar != SERVICE)
        return;
    /* a service of no time is still a stop */
    draw_box(bar, x, y, bar == SERVICE && width < 2 ? 2 : later(width, 0), colour_of(strips.r, k));
    fprintf(strips.out, "><title>%s, %s to %s, %s %u</title></rect>\n", names[bar], plain(from), plain(to), what, stop);
}

static void draw_bars(unsigned k, double y)
{
    const struct round *round = &strips.r->round[k];
    double left = 0;
    for (unsigned i = round->first; i < round->first + round->stops; i++) {
        const struct visit *visit = &strips.r->visit[i];
        draw_bar(DRIVING, y, k, left, visit->arrival, "to stop", visit->stop);
        if (visit->rested) {
            draw_bar(WAITING, y, k, visit->arrival, round->rest_start, "for the rest at stop", visit->stop);
            draw_bar(REST, y, k, round->rest_start, round->rest_end, "before stop", visit->stop);
        }
        draw_bar(WAITING, y, k, visit->free, visit->start, "at stop", visit->stop);
        draw_bar(SERVICE, y, k, visit->start, visit->departure, "stop", visit->stop);
        left = visit->departure;
    }
    if (round->stops > 0 || round->rests_home)
        draw_bar(DRIVING, y, k, left, round->returned, "back to depot", round->depot);
    if (round->rests_home) {
        draw_bar(WAITING, y, k, round->returned, round->rest_start, "for the rest at depot", round->depot);
        draw_bar(REST, y, k, round->rest_start, round->rest_end, "at depot", round->depot);
    }
}

static void label_visits(unsigned k, double y)
{
    const struct round *round = &strips.r->round[k];
    for (unsigned i = round->first; i < round->first + round->stops; i++) {
        const struct visit *visit = &strips.r->visit[i];
        struct span span = label_of(visit);
        if (strips.line[i] < LABEL_LINES)
            letter(strips.out, (span.from + span.to) / 2, y + BAR + LABEL * (int)(strips.line[i] + 1), 9,
                   visit->late > 0 ? ALARM : FAINT_INK, "middle", "%u", visit->stop);
    }
}

/* ---- windows */

static void draw_tick(double x, double y, const char *colour)
{
    fprintf(strips.out, "<path d=\"M%.1f %.1fv6\" stroke=\"%s\" stroke-width=\"1.4\"/>\n", x, y - 3, colour);
}

static void window_title(const struct visit *visit)
{
    fprintf(strips.out, "<title>stop %u: window %s to %s%s, there at %s", visit->stop, plain(visit->ready), plain(visit->due),
            visit->is_soft ? ", soft" : "", plain(visit->free));
    if (visit->late > 0)
        fprintf(strips.out, ", %s by %s", visit->is_soft ? "late" : "MISSED", plain(visit->late));
    fputs("</title>\n", strips.out);
}

/* A bracket; one that closes after the axis' end stays open there. */
static void draw_window(const struct visit *visit, double y, const char *round_colour)
{
    const char *colour = visit->late > 0 ? ALARM : round_colour;
    double from = x_of(visit->ready), to = x_of(visit->due), at = x_of(visit->free);
    fputs("<g>", strips.out);
    window_title(visit);
    fprintf(strips.out, "<path d=\"M%.1f %.1fH%.1f\" stroke=\"%s\" stroke-width=\"1.2\"%s/>\n", from, y, to, colour,
            visit->is_soft ? " stroke-dasharray=\"4 2\"" : "");
    draw_tick(from, y, colour);
    if (visit->due <= strips.end)
        draw_tick(to, y, colour);
    if (at > to || at < from)
        fprintf(strips.out, "<path d=\"M%.1f %.1fH%.1f\" stroke=\"%s\" stroke-width=\"1\" stroke-dasharray=\"1 2\"/>\n",
                at > to ? to : at, y, at > to ? at : from, colour);
    if (visit->late > 0)
        fprintf(strips.out, "<path d=\"M%.1f %.1fl5 5m0 -5l-5 5\" stroke=\"" ALARM "\" stroke-width=\"1.8\"/>\n", at - 2.5, y - 2.5);
    else
        fprintf(strips.out, "<circle cx=\"%.1f\" cy=\"%.1f\" r=\"2.2\" fill=\"%s\"/>\n", at, y, colour);
    letter(strips.out, later(to, at) + 6, y + 3, 9, colour, "start", "%u", visit->stop);
    fputs("</g>\n", strips.out);
}

static void draw_windows(unsigned k, double top)
{
    const struct round *round = &strips.r->round[k];
    for (unsigned i = round->first; i < round->first + round->stops; i++)
        if (strips.r->visit[i].has_window)
            draw_window(&strips.r->visit[i], top + LANE * strips.lane[i] + LANE / 2.0, colour_of(strips.r, k));
}

/* ---- when the depot closes */

/* One after the axis' end is not drawn. */
static int closing_is_drawn(const struct round *round)
{
    return round->closes && round->due <= strips.end;
}

static void draw_closing(const struct round *round, double y)
{
    if (!closing_is_drawn(round))
        return;
    fprintf(strips.out, "<path d=\"M%.1f %.1fv%d\" stroke=\"%s\" stroke-width=\"2\"><title>depot %u closes at %s%s</title></path>\n",
            x_of(round->due), y - 3, BAR + 6, round->is_late ? ALARM : INK, round->depot, plain(round->due),
            round->is_late ? ", back after it" : "");
}

/* ---- a strip, and all of them */

static void draw_strip(unsigned k, int top)
{
    const struct round *round = &strips.r->round[k];
    double bars = top + (int)strips.lanes[k] * LANE + 2;
    fprintf(strips.out, "<path d=\"M20 %dv%d\" stroke=\"%s\" stroke-width=\"5\" stroke-linecap=\"round\"/>\n", top + 4, 24,
            colour_of(strips.r, k));
    fit(strips.out, 32, top + 13, 13, INK, NAME_ROOM, "%sround %u: vehicle %lu", crew_words(strips.r, k, "", ", "), k + 1,
        (unsigned long)round->id);
    fit(strips.out, 32, top + 29, 11, FAINT_INK, NAME_ROOM, "load %ld of %ld, back at %s", round->load, round->capacity,
        plain(round->returned));
    draw_windows(k, top);
    draw_bars(k, bars);
    draw_closing(round, bars);
    label_visits(k, bars);
}

/* Those of a crew, or of number 0 all: where the next strip stands. */
static int draw_strips_of(unsigned crew, int top)
{
    for (unsigned k = 0; k < strips.r->rounds; k++)
        if (crew == 0 || planner_deal_crew(strips.r->deal.crew, k) == crew) {
            draw_strip(k, top);
            top += strip_height(k);
        }
    return top;
}

static void draw_scale(int top, int bottom)
{
    for (unsigned k = 0; strips.step > 0 && k <= 12 && k * strips.step <= strips.end; k++) {
        double x = x_of(k * strips.step);
        fprintf(strips.out, "<path d=\"M%.1f %dV%d\" stroke=\"#e1e5ea\" stroke-width=\"1\"/>\n", x, top, bottom);
        letter(strips.out, x, top - 6, 11, FAINT_INK, "middle", "%s", plain(k * strips.step));
        letter(strips.out, x, bottom + 14, 11, FAINT_INK, "middle", "%s", plain(k * strips.step));
    }
}

static double draw_key_bar(enum bar bar, double x, double y, const char *name)
{
    draw_box(bar, x, y - BAR + 2, 26, FAINTER_INK);
    fputs("/>\n", strips.out);
    letter(strips.out, x + 32, y, 12, FAINT_INK, "start", "%s", name);
    return x + 100;
}

static double draw_key_window(double x, double y, const char *colour, const char *dashes, const char *name, int missed)
{
    fprintf(strips.out, "<path d=\"M%.1f %.1fh26\" stroke=\"%s\" stroke-width=\"1.2\"%s/>\n", x, y - 4, colour, dashes);
    draw_tick(x, y - 4, colour);
    draw_tick(x + 26, y - 4, colour);
    if (missed)
        fprintf(strips.out, "<path d=\"M%.1f %.1fl5 5m0 -5l-5 5\" stroke=\"" ALARM "\" stroke-width=\"1.8\"/>\n", x + 32, y - 6.5);
    else
        fprintf(strips.out, "<circle cx=\"%.1f\" cy=\"%.1f\" r=\"2.2\" fill=\"%s\"/>\n", x + 13, y - 4, colour);
    letter(strips.out, x + (missed ? 42 : 32), y, 12, FAINT_INK, "start", "%s", name);
    return x + 120;
}

static void draw_key(int y)
{
    double x = LEFT;
    letter(strips.out, 20, y, 17, INK, "start", "Rounds over time");
    x = draw_key_bar(DRIVING, x, y, "driving");
    x = draw_key_bar(WAITING, x, y, "waiting");
    x = draw_key_bar(SERVICE, x, y, "service");
    x = draw_key_bar(REST, x, y, "rest");
    x = draw_key_window(x, y, FAINTER_INK, "", "window", 0);
    x = draw_key_window(x, y, FAINTER_INK, " stroke-dasharray=\"4 2\"", "soft window", 0);
    x = draw_key_window(x + 10, y, ALARM, "", "missed, or late", 1);
    for (unsigned k = 0; k < strips.r->rounds; k++)
        if (closing_is_drawn(&strips.r->round[k])) {
            fprintf(strips.out, "<path d=\"M%.1f %dv%d\" stroke=\"" INK "\" stroke-width=\"2\"/>\n", x + 25, y - 14, BAR + 6);
            letter(strips.out, x + 31, y, 12, FAINT_INK, "start", "depot closes");
            return;
        }
}

void draw_strips(FILE *out, const struct reading *r, int top)
{
    int y = top + HEAD, bottom = top + strips_height(r) - FOOT;
    strips.out = out;
    if (r->rounds == 0)
        return;
    draw_key(top + 28);
    draw_scale(y - 8, bottom);
    for (unsigned crew = r->deal.crews > 0; crew <= r->deal.crews; crew++)
        y = draw_strips_of(crew, y);
}
