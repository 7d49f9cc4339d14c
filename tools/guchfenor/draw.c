/* draw: a picture of a plan as SVG, rounds on the map and, by strips.c, over time; by reasons.c what is set aside. */
#include <stdarg.h>
#include <string.h>

#include "names.h"
#include "numbers.h"
#include "picture.h"

enum { LINE = 21, GAP = 8, LEGEND_TOP = 36, LEGEND_ROOM = WIDTH - LEGEND_X - 8 };
/* Rounds that the legend has room for, with a second line and without, and together with crews; the strips tell of the
   others. */
enum { MOST_FULL = 11, MOST_SHORT = 27, MOST_WITH_CREWS = 24 };

/* No red: it tells what was missed. */
static const char *const colours[COLOURS] = {
    "#1f6fb2", "#d9480f", "#2b8a3e", "#9c36b5", "#e64980", "#0b7285", "#e67700", "#5f3dc4",
    "#a61e4d", "#5c940d", "#364fc7", "#846358", "#087f5b", "#862e9c", "#495057", "#b08800"};

static const char *const aside_look = " stroke=\"" FAINTER_INK "\" stroke-width=\"1.6\" stroke-dasharray=\"3 2\"";
static const char *const rest_look = " stroke=\"" INK "\" stroke-width=\"1.8\"";
static const char *const stop_look = " stroke=\"#ffffff\" stroke-width=\"1.5\"";

struct map {
    FILE *out;
    const struct reading *r;
    double x[PLANNER_MOST_ROWS], y[PLANNER_MOST_ROWS];
    int legend_y;
};

/* A round's own, or its crew's. */
static unsigned colour_number(const struct reading *r, unsigned round)
{
    return (r->deal.crews > 0 ? planner_deal_crew(r->deal.crew, round) - 1 : round) % COLOURS;
}

const char *colour_of(const struct reading *r, unsigned round)
{
    return colours[colour_number(r, round)];
}

const char *crew_words(const struct reading *r, unsigned round, const char *before, const char *after)
{
    static char text[32];
    text[0] = '\0';
    if (r->deal.crews > 0)
        snprintf(text, sizeof text, "%screw %u%s", before, planner_deal_crew(r->deal.crew, round), after);
    return text;
}

void letter(FILE *out, double x, double y, int size, const char *fill, const char *anchor, const char *format, ...)
{
    va_list given;
    fprintf(out, "<text x=\"%.1f\" y=\"%.1f\" font-size=\"%d\" fill=\"%s\" text-anchor=\"%s\">", x, y, size, fill, anchor);
    va_start(given, format);
    vfprintf(out, format, given);
    va_end(given);
    fputs("</text>\n", out);
}

void fit(FILE *out, double x, double y, int size, const char *fill, int room, const char *format, ...)
{
    char text[200];
    va_list given;
    va_start(given, format);
    vsnprintf(text, sizeof text, format, given);
    va_end(given);
    double width = 0.6 * size * (double)strlen(text); /* as letters go */
    fprintf(out, "<text x=\"%.1f\" y=\"%.1f\" font-size=\"%.1f\" fill=\"%s\">%s</text>\n", x, y,
            width > room ? size * room / width : size, fill, text);
}

/* ---- the map */

static void widen(double *least, double *most, double value)
{
    if (value < *least)
        *least = value;
    if (value > *most)
        *most = value;
}

/* From the sheet's coordinates, upwards, to the picture's, downwards; both ways at one scale. */
static void place(struct map *m)
{
    const uint8_t *sheet = m->r->sheet.bytes;
    double left = 1e9, right = -1e9, low = 1e9, high = -1e9;
    for (unsigned k = 0; k < m->r->rows; k++) {
        widen(&left, &right, planner_row_x(sheet, k));
        widen(&low, &high, planner_row_y(sheet, k));
    }
    double span = right - left > high - low ? right - left : high - low;
    double scale = span > 0 ? (SIDE - 2 * MARGIN) / span : 0;
    for (unsigned k = 0; k < m->r->rows; k++) {
        m->x[k] = SIDE / 2.0 + (planner_row_x(sheet, k) - (left + right) / 2) * scale;
        m->y[k] = SIDE / 2.0 - (planner_row_y(sheet, k) - (low + high) / 2) * scale;
    }
}

/* The radius of a stop's mark: smaller where there are many. */
static int radius(const struct map *m)
{
    return m->r->rows <= 40 ? 11 : m->r->rows <= 70 ? 9 : 7;
}

/* Two marks that would cover each other go apart, along the axis that they differ by more; a depot stays. */
static int move_apart(struct map *m, unsigned a, unsigned b)
{
    double *at = m->x, size = 2 * radius(m) + 1, dx = m->x[b] - m->x[a], dy = m->y[b] - m->y[a], apart = dx;
    if (dx * dx + dy * dy >= size * size)
        return 0;
    if (dy * dy > dx * dx || (dx * dx + dy * dy == 0 && (a ^ b) & 1)) {
        at = m->y;
        apart = dy;
    }
    double step = (apart < 0 ? -size - apart : size - apart) / 2;
    if (a >= m->r->depots)
        at[a] -= step;
    if (b >= m->r->depots)
        at[b] += step;
    return 1;
}

static int settle(struct map *m)
{
    int moved = 0;
    for (unsigned b = 1; b < m->r->rows; b++)
        for (unsigned a = 0; a < b; a++)
            moved += b >= m->r->depots && move_apart(m, a, b);
    return moved;
}

/* A mark that was moved far has lost its place; it goes back there, and covers what it covers. */
static void keep_near(struct map *m, const double *x, const double *y)
{
    double far = 4 * radius(m);
    for (unsigned k = 0; k < m->r->rows; k++) {
        double dx = m->x[k] - x[k], dy = m->y[k] - y[k];
        if (dx * dx + dy * dy > far * far || m->x[k] < MARGIN / 2.0 || m->x[k] > SIDE - MARGIN / 2.0 || m->y[k] < MARGIN / 2.0
            || m->y[k] > SIDE - MARGIN / 2.0) {
            m->x[k] = x[k];
            m->y[k] = y[k];
        }
    }
}

static void spread(struct map *m)
{
    double x[PLANNER_MOST_ROWS], y[PLANNER_MOST_ROWS];
    memcpy(x, m->x, sizeof x);
    memcpy(y, m->y, sizeof y);
    for (int k = 0; k < 40 && settle(m) > 0; k++)
        continue;
    keep_near(m, x, y);
}

static void draw_head(const struct map *m)
{
    int height = SIDE + strips_height(m->r) + reasons_height(m->r);
    fprintf(m->out,
            "<svg xmlns=\"http://www.w3.org/2000/svg\" viewBox=\"0 0 %d %d\" width=\"%d\" height=\"%d\" "
            "font-family=\"Helvetica, Arial, sans-serif\">\n",
            WIDTH, height, WIDTH, height);
    fputs("<title>A plan of rounds</title>\n"
          "<desc>Drawn by guchfenor draw, which is outside the proof, from the bytes of a sheet and a plan.</desc>\n"
          "<defs>\n",
          m->out);
    for (int k = 0; k < COLOURS; k++)
        fprintf(m->out,
                "<marker id=\"way%d\" viewBox=\"0 0 10 10\" refX=\"6\" refY=\"5\" markerWidth=\"11\" markerHeight=\"11\" "
                "markerUnits=\"userSpaceOnUse\" orient=\"auto\"><path d=\"M0 0L10 5L0 10L2.5 5z\" fill=\"%s\"/></marker>\n",
                k, colours[k]);
    fprintf(m->out, "</defs>\n<rect width=\"%d\" height=\"%d\" fill=\"#ffffff\"/>\n", WIDTH, height);
    fprintf(m->out,
            "<rect x=\"8\" y=\"8\" width=\"%d\" height=\"%d\" rx=\"10\" fill=\"#f6f8fa\" stroke=\"#d0d7de\"/>\n", SIDE - 16,
            SIDE - 16);
}

/* A leg with an arrow; the ways out of a depot and home are drawn fainter. The arrow stands at the middle, but for a
   round of one stop, whose two ways lie on each other. */
static void draw_leg(const struct map *m, unsigned from, unsigned to, unsigned round)
{
    int outer = from < m->r->depots || to < m->r->depots;
    double part = m->r->round[round].stops == 1 ? 0.36 : 0.5;
    fprintf(m->out,
            "<path d=\"M%.1f %.1fL%.1f %.1fL%.1f %.1f\" fill=\"none\" stroke=\"%s\" stroke-width=\"2.2\"%s "
            "marker-mid=\"url(#way%u)\"/>\n",
            m->x[from], m->y[from], m->x[from] + (m->x[to] - m->x[from]) * part, m->y[from] + (m->y[to] - m->y[from]) * part,
            m->x[to], m->y[to],
            colour_of(m->r, round), outer ? " stroke-dasharray=\"7 4\" opacity=\"0.65\"" : "", colour_number(m->r, round));
}

static void draw_round(const struct map *m, unsigned k)
{
    const struct round *round = &m->r->round[k];
    unsigned last = round->depot;
    if (round->stops == 0)
        return;
    fprintf(m->out, "<g><title>round %u, vehicle %lu%s</title>\n", k + 1, (unsigned long)round->id,
            crew_words(m->r, k, ", ", ""));
    for (unsigned i = round->first; i < round->first + round->stops; i++) {
        draw_leg(m, last, m->r->visit[i].stop, k);
        last = m->r->visit[i].stop;
    }
    draw_leg(m, last, round->depot, k);
    fputs("</g>\n", m->out);
}

static void disc(FILE *out, double x, double y, int r, const char *fill, const char *more)
{
    fprintf(out, "<circle cx=\"%.1f\" cy=\"%.1f\" r=\"%d\" fill=\"%s\"%s/>\n", x, y, r, fill, more);
}

static void square(FILE *out, double x, double y, int r)
{
    fprintf(out, "<rect x=\"%.1f\" y=\"%.1f\" width=\"%d\" height=\"%d\" rx=\"3\" fill=\"" INK "\"%s/>\n", x - r, y - r, 2 * r,
            2 * r, stop_look);
}

static void number(const struct map *m, unsigned row, int size, const char *fill)
{
    int small = row < 100 ? size : size - 2;
    fprintf(m->out,
            "<text x=\"%.1f\" y=\"%.1f\" font-size=\"%d\" fill=\"%s\" text-anchor=\"middle\" font-weight=\"bold\">%u</text>\n",
            m->x[row], m->y[row] + small * 0.36, small, fill, row);
}

static void stop_title(const struct map *m, unsigned row)
{
    const uint8_t *sheet = m->r->sheet.bytes;
    fprintf(m->out, "<title>stop %u: demand %ld", row, (long)planner_row_demand(sheet, row));
    if (planner_row_marks(sheet, row) & PLANNER_WINDOW)
        fprintf(m->out, ", window %s to %s", plain(planner_row_ready(sheet, row)), plain(planner_row_due(sheet, row)));
    if (m->r->round_of[row] > 0) {
        const struct visit *visit = &m->r->visit[m->r->visit_of[row]];
        fprintf(m->out, "; place %u of round %u, arrival %s, departure %s", visit->place, m->r->round_of[row],
                plain(visit->arrival), plain(visit->departure));
    } else
        fprintf(m->out, "; set aside: %s", planner_reason_text(planner_stop_reason(m->r->plan.bytes, row)));
    fputs("</title>\n", m->out);
}

static void draw_stop(const struct map *m, unsigned row)
{
    double x = m->x[row], y = m->y[row];
    int r = radius(m);
    fputs("<g>", m->out);
    stop_title(m, row);
    if (m->r->round_of[row] == 0) {
        disc(m->out, x, y, r, "#ffffff", aside_look);
        number(m, row, r + 1, FAINTER_INK);
    } else {
        if (m->r->visit[m->r->visit_of[row]].rested)
            disc(m->out, x, y, r + 4, "none", rest_look);
        disc(m->out, x, y, r, colour_of(m->r, m->r->round_of[row] - 1), stop_look);
        number(m, row, r + 1, "#ffffff");
    }
    fputs("</g>\n", m->out);
}

/* How many rounds rest at a depot. */
static unsigned rests_at(const struct map *m, unsigned row)
{
    unsigned count = 0;
    for (unsigned k = 0; k < m->r->rounds; k++)
        count += m->r->round[k].rests_home && m->r->round[k].depot == row;
    return count;
}

static void draw_depot(const struct map *m, unsigned row)
{
    const uint8_t *sheet = m->r->sheet.bytes;
    unsigned rests = rests_at(m, row);
    int r = radius(m) + 2;
    fprintf(m->out, "<g><title>depot %u", row);
    if (planner_row_marks(sheet, row) & PLANNER_WINDOW)
        fprintf(m->out, ", rounds are home by %s", plain(planner_row_due(sheet, row)));
    if (rests > 0)
        fprintf(m->out, ", %u round%s a rest there", rests, rests == 1 ? " has" : "s have");
    fputs("</title>\n", m->out);
    if (rests > 0)
        disc(m->out, m->x[row], m->y[row], r + 8, "none", rest_look);
    square(m->out, m->x[row], m->y[row], r);
    number(m, row, r, "#ffffff");
    fputs("</g>\n", m->out);
}

/* ---- the legend */

/* A line of the legend's, after a stroke of the colour. */
static void legend_stroke(struct map *m, const char *colour)
{
    m->legend_y += LINE;
    fprintf(m->out, "<path d=\"M%d %dH%d\" stroke=\"%s\" stroke-width=\"5\" stroke-linecap=\"round\"/>\n", LEGEND_X + 3,
            m->legend_y - 5, LEGEND_X + 23, colour);
}

static void legend_of_load(const struct map *m, unsigned k, int size, const char *fill)
{
    const struct round *round = &m->r->round[k];
    fit(m->out, LEGEND_X + 34, m->legend_y, size, fill, LEGEND_ROOM - 34, "round %u: vehicle %lu, load %ld of %ld", k + 1,
        (unsigned long)round->id, round->load, round->capacity);
}

static void legend_of_round(struct map *m, unsigned k)
{
    const struct round *round = &m->r->round[k];
    legend_stroke(m, colour_of(m->r, k));
    legend_of_load(m, k, 15, INK);
    if (m->r->rounds > MOST_FULL)
        return;
    m->legend_y += LINE;
    fit(m->out, LEGEND_X + 34, m->legend_y, 13, FAINT_INK, LEGEND_ROOM - 34, "%u stop%s, distance %s, back at %s", round->stops,
        plural(round->stops), plain(round->distance), plain(round->returned));
    m->legend_y += GAP;
}

static void legend_of_rounds(struct map *m)
{
    unsigned told = m->r->rounds <= MOST_SHORT ? m->r->rounds : MOST_SHORT - 1;
    for (unsigned k = 0; k < told; k++)
        legend_of_round(m, k);
    if (told < m->r->rounds)
        letter(m->out, LEGEND_X + 34, m->legend_y += LINE, 15, FAINT_INK, "start", "and %u more, in the strips below",
               m->r->rounds - told);
}

/* A crew, and its total where that is known. */
static void legend_of_crew(struct map *m, unsigned crew)
{
    char total_text[40] = "";
    uint64_t total;
    unsigned rounds = rounds_of(&m->r->deal, crew, &total);
    if (m->r->deal.walk.there)
        snprintf(total_text, sizeof total_text, ", total %llu", (unsigned long long)total);
    legend_stroke(m, colours[crew - 1]);
    fit(m->out, LEGEND_X + 34, m->legend_y, 15, INK, LEGEND_ROOM - 34, "crew %u: %u round%s%s", crew, rounds, plural(rounds),
        total_text);
}

/* With their rounds, where there is room for all. */
static void legend_of_crews(struct map *m)
{
    int has_room = m->r->rounds + m->r->deal.crews <= MOST_WITH_CREWS;
    for (unsigned crew = 1; crew <= m->r->deal.crews; crew++) {
        legend_of_crew(m, crew);
        for (unsigned k = 0; k < m->r->rounds && has_room; k++)
            if (planner_deal_crew(m->r->deal.crew, k) == crew) {
                m->legend_y += LINE;
                legend_of_load(m, k, 13, FAINT_INK);
            }
        m->legend_y += GAP;
    }
    if (!has_room)
        letter(m->out, LEGEND_X + 34, m->legend_y += LINE, 15, FAINT_INK, "start", "their rounds are in the strips below");
}

static int rests_home(const struct map *m)
{
    unsigned count = 0;
    for (unsigned row = 0; row < depots_there(m->r); row++)
        count += rests_at(m, row);
    return count > 0;
}

static void legend_of_marks(struct map *m)
{
    int y = m->legend_y + LINE + GAP;
    square(m->out, LEGEND_X + 13, y - 5, 8);
    disc(m->out, LEGEND_X + 113, y - 5, 8, "#ffffff", aside_look);
    disc(m->out, LEGEND_X + 213, y - 5, 6, FAINTER_INK, "");
    disc(m->out, LEGEND_X + 213, y - 5, 9, "none", rest_look);
    letter(m->out, LEGEND_X + 30, y, 13, FAINT_INK, "start", "depot");
    letter(m->out, LEGEND_X + 130, y, 13, FAINT_INK, "start", "set aside");
    letter(m->out, LEGEND_X + 230, y, 13, FAINT_INK, "start", rests_home(m) ? "rest there" : "rest before it");
    letter(m->out, LEGEND_X, y + 2 * LINE, 12, FAINTER_INK, "start", "A picture of the plan's bytes, outside the proof.");
}

static void legend(struct map *m)
{
    unsigned stops = m->r->rows - depots_there(m->r);
    m->legend_y = LEGEND_TOP;
    letter(m->out, LEGEND_X, m->legend_y, 19, INK, "start", "%u round%s, method %s", m->r->rounds, plural(m->r->rounds),
           method_name(m->r->method));
    m->legend_y += LINE;
    fit(m->out, LEGEND_X, m->legend_y, 14, FAINT_INK, LEGEND_ROOM, "%u stop%s, %u set aside, cost %s", stops, plural(stops),
        m->r->asides, plain(m->r->cost));
    m->legend_y += GAP;
    if (m->r->deal.crews > 0)
        legend_of_crews(m);
    else
        legend_of_rounds(m);
    legend_of_marks(m);
}

static int run_draw(const struct call *call)
{
    static struct reading r;
    static struct map m;
    uint32_t crews = 0, answer = PLANNER_ACCEPTED;
    if (call->crews != NULL && read_crews(&crews, call->crews) != DONE)
        return UNUSABLE;
    int status = take_reading(&r, call);
    if (status != DONE)
        return status;
    if (call->crews != NULL)
        answer = deal_plan(&r.deal, crews, &r.sheet, &r.plan);
    if (answer != PLANNER_ACCEPTED)
        return deal_refused(answer, crews, call->word[0], call->word[1]);
    m.out = open_out(call->out);
    if (m.out == NULL)
        return UNUSABLE;
    m.r = &r;
    place(&m);
    spread(&m);
    draw_head(&m);
    for (unsigned k = 0; k < r.rounds; k++)
        draw_round(&m, k);
    for (unsigned row = 0; row < depots_there(&r); row++)
        draw_depot(&m, row);
    for (unsigned row = depots_there(&r); row < r.rows; row++)
        draw_stop(&m, row);
    legend(&m);
    draw_strips(m.out, &r, SIDE);
    draw_reasons(m.out, &r, SIDE + strips_height(&r));
    fputs("</svg>\n", m.out);
    status = close_out(m.out, call->out);
    return status == DONE && r.strange > 0 ? WRONG : status;
}

const struct command draw_command = {
    "draw", "draw SHEET PLAN [--crews N] [-o SVG]", "draw a plan as a picture", 2, 2,
    TAKES_OUT | TAKES_CREWS, run_draw,
    "Reads a sheet and a plan of it and writes a picture (SVG), to standard output or to\n"
    "the SVG after -o: the rounds on a map, by the sheet's coordinates (marks that would\n"
    "cover each other are moved apart a little), and under it a\n"
    "strip for each round over time: driving, waiting, service and rest, and over them a\n"
    "bracket for each stop's window with a dot where the stop could be served from. A\n"
    "missed window, and a soft one that was late, is red. A tick through the bar is the\n"
    "due of the round's depot, red where the round is back after it. Then come the reasons\n"
    "for which stops are set aside, each with its stops. Stops and bars have titles.\n\n"
    "With --crews N the rounds are dealt to N crews, 1 to 8, as `guchfenor deal` does; they\n"
    "have the colours of their crews, stand crew by crew, and the legend has each crew's\n"
    "total (with one depot).\n\n"
    "A plan whose counts, links or reasons do not fit the sheet is told and not drawn. One\n"
    "whose figures are not what the sheet gives is drawn, and told; the status is then 1.\n"};
