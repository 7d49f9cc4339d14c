/*
 * Fuzzes the planner, the limiter, the biller, the dealer and the importer by mutations
 * that know the form of sheets, plans and texts.
 *
 *   fuzz SECONDS [SEED]              mutates for so long
 *   fuzz replay FILE [PLAN_BYTES]    asks a kept sheet again
 *   fuzz limit SHEET PLAN GREATEST [PLAN_OUT_BYTES]    asks the limiter again
 *   fuzz bill SHEET PLAN RATE RATE LEAST [BILL_BYTES]    asks the biller again
 *   fuzz deal SHEET PLAN CREWS [DEAL_BYTES]    asks the dealer again
 *   fuzz import TEXT [SHEET_BYTES]    asks the importer again
 *
 * Sheets are drawn, mutated field by field according to what a field is, cut, spliced
 * and fitted to their own plans. A sheet that shows something new joins the corpus from
 * which the next ones are taken. After each sheet the limiter, the biller and the dealer
 * are asked with a plan in for it: its own, or one that is dealt, and mutated. In between
 * the next sheet is one that the importer makes of a text, drawn and mutated likewise.
 * Every call is lent as lend.h says; a plan is held to plan_check.h, and whether a plan in
 * is taken too, a bill to bill_check.h and a deal to deal_check.h; an imported sheet has
 * to be planned. A fault's sheet is kept in the file fuzz-fault.sheet, the plan in in
 * fuzz-fault.plan and the importer's text in fuzz-fault.text; the exit status is 1.
 */
#define _GNU_SOURCE
#include <stdint.h>
#include <stdio.h>
#include <stdlib.h>
#include <sys/time.h>
#include <time.h>

#include "mutate_plan.h"
#include "mutate_text.h"

enum { MOST_KEPT = 4096, MOST_KEPT_BYTES = 1 << 26, SIGNALS = 1 << 16 };
/* No call takes so long, by the processor's time. */
enum { PATIENCE_SECONDS = 20 };
static const char FAULT_FILE[] = "fuzz-fault.sheet", FAULT_PLAN[] = "fuzz-fault.plan", FAULT_TEXT[] = "fuzz-fault.text";

struct kept {
    uint8_t *bytes;
    size_t len;
};

struct corpus {
    struct kept kept[MOST_KEPT];
    unsigned count;
    size_t bytes;
};

/* The sheet that is asked, and another one; the plan in; the text, another one, and the buffer's length; who is asked. */
static struct sheet asked, spare;
static struct plan_in plan_in;
static struct text text, spare_text;
static size_t import_len;
static enum { PLANNING, LIMITING, BILLING, DEALING, IMPORTING } asking;
static uint8_t plan[MOST_PLAN], plan_out[MOST_PLAN], out[MOST_OUT], imported[MOST_IMPORT];
static struct corpus accepted, refused, texts;
static uint8_t signals[SIGNALS];
static unsigned signal_count;
static unsigned long sheets, answers[PLANNER_NO_VEHICLE + 1], planned[PLANNER_SWEEP + 1];
static unsigned long limits, limit_answers[PLANNER_BAD_PLAN + 1], dropped, home_rests, limited_home_rests;
static unsigned long reasons[REASONS], limited_reasons[REASONS], reasons_refused;
static unsigned long plan_answers[ANSWER_KINDS][PLANNER_BAD_CREWS + 1], of_several_depots[ANSWER_KINDS];
static unsigned long charges_checked, whole_units, crews_checked, tied_rounds, tied_crews;
static unsigned long imports, import_answers[PLANNER_TOO_MANY_CUSTOMERS + 1];

static void keep_fault(const char *name, const uint8_t *bytes, size_t len)
{
    FILE *file = fopen(name, "wb");
    if (file == NULL || fwrite(bytes, 1, len, file) != len || fclose(file) != 0)
        fprintf(stderr, "fuzz: %s was not written\n", name);
}

static void end_import(const char *what)
{
    fprintf(stderr, "fuzz: %s: a text of %zu bytes, a buffer of %zu\n", what, text.len, import_len);
    keep_fault(FAULT_TEXT, text.bytes, text.len);
    fprintf(stderr, "fuzz: again with: fuzz import %s %zu\n", FAULT_TEXT, import_len);
    exit(1);
}

static void end(const char *what)
{
    size_t plan_len = asking == PLANNING ? asked.plan_len : plan_in.len;
    if (asking == IMPORTING)
        end_import(what);
    fprintf(stderr, "fuzz: %s: a sheet of %zu bytes, a plan of %zu\n", what, asked.len, plan_len);
    keep_fault(FAULT_FILE, asked.bytes, asked.len);
    if (asking != PLANNING)
        keep_fault(FAULT_PLAN, plan_in.bytes, plan_in.len);
    if (asking == LIMITING)
        fprintf(stderr, "fuzz: again with: fuzz limit %s %s %u %zu\n", FAULT_FILE, FAULT_PLAN,
                (unsigned)plan_in.greatest, plan_in.plan_out_len);
    else if (asking == BILLING)
        fprintf(stderr, "fuzz: again with: fuzz bill %s %s %u %u %u %zu\n", FAULT_FILE, FAULT_PLAN,
                (unsigned)plan_in.distance_rate, (unsigned)plan_in.duration_rate, (unsigned)plan_in.least,
                plan_in.out_len[BILL]);
    else if (asking == DEALING)
        fprintf(stderr, "fuzz: again with: fuzz deal %s %s %u %zu\n", FAULT_FILE, FAULT_PLAN, (unsigned)plan_in.crews,
                plan_in.out_len[DEAL]);
    else
        fprintf(stderr, "fuzz: again with: fuzz replay %s %zu\n", FAULT_FILE, plan_len);
    exit(1);
}

/* A call that is the same at two alarms has not returned in between. */
static void alarmed(int signal_number)
{
    static unsigned long seen;
    if (signal_number == SIGVTALRM && calls == seen)
        end("a call that does not return");
    seen = calls;
}

static void watch_calls(void)
{
    struct sigaction act;
    struct itimerval every = {{PATIENCE_SECONDS, 0}, {PATIENCE_SECONDS, 0}};
    memset(&act, 0, sizeof act);
    act.sa_handler = alarmed;
    act.sa_flags = SA_ONSTACK;
    if (sigaction(SIGVTALRM, &act, NULL) != 0 || setitimer(ITIMER_VIRTUAL, &every, NULL) != 0)
        end("no alarm");
}

static void keep(struct corpus *in, const uint8_t *from, size_t len)
{
    struct kept *to = &in->kept[in->count < MOST_KEPT ? in->count : draw(MOST_KEPT)];
    uint8_t *bytes = malloc(len + 1);
    if (bytes == NULL || in->bytes + len > MOST_KEPT_BYTES) {
        free(bytes);
        return;
    }
    in->count += in->count < MOST_KEPT;
    in->bytes += len - to->len;
    free(to->bytes);
    to->bytes = memcpy(bytes, from, len);
    to->len = len;
}

/* The length of what was taken: the shorter of two for the most part, since it is asked sooner. */
static size_t take_from(const struct corpus *in, uint8_t *bytes)
{
    const struct kept *from = &in->kept[draw(in->count)], *other = &in->kept[draw(in->count)];
    if (other->len < from->len && !one_in(8))
        from = other;
    memcpy(bytes, from->bytes, from->len);
    return from->len;
}

static void take(struct sheet *s)
{
    s->len = take_from(refused.count > 0 && (accepted.count == 0 || one_in(12)) ? &refused : &accepted, s->bytes);
}

/* Whether this value of this kind is seen for the first time. */
static int is_new(unsigned kind, unsigned value)
{
    uint64_t mixed = (kind + UINT64_C(0x9e3779b97f4a7c15) * (value + UINT64_C(1))) * UINT64_C(0xbf58476d1ce4e5b9);
    uint8_t *seen = &signals[(mixed ^ mixed >> 31) % SIGNALS];
    if (*seen)
        return 0;
    *seen = 1;
    signal_count++;
    return 1;
}

/* A number's rough size. */
static unsigned size_class(unsigned n)
{
    unsigned class = 0;
    for (; n > 2; n = n * 2 / 3)
        class++;
    return 3 * class + n;
}

/* Which sets of marks a sheet's records have, one bit for each. */
static unsigned marks_met(const uint8_t *records, unsigned n, unsigned width)
{
    unsigned met = 0;
    for (unsigned i = 0; i < n; i++)
        met |= 1u << (planner_get(records + width * i + AT_MARKS, 4) & 15);
    return met;
}

/* The chains' links, mixed. */
static unsigned links_class(const struct reading *r)
{
    uint64_t mixed = planner_get(r->plan, 4);
    for (unsigned stop = r->depots; stop < r->rows; stop++)
        mixed = (mixed ^ next_of(r, r->plan, stop)) * UINT64_C(0x9e3779b97f4a7c15);
    return (unsigned)(mixed >> 52);
}

/* How many rounds rest, and how many are late. */
static unsigned incidents(const struct reading *r, unsigned rounds)
{
    unsigned rests = 0, late = 0;
    for (unsigned k = 0; k < rounds; k++) {
        rests += planner_round_rest_place(r->plan, k) != 0;
        late += planner_round_lateness(r->plan, k) > 0.0;
    }
    return size_class(rests) << 8 | size_class(late);
}

/* Which reasons stops are set aside for, one bit for each. */
static unsigned reasons_met(const struct reading *r)
{
    unsigned met = 0;
    for (unsigned reason = 0; reason < REASONS; reason++)
        met |= (unsigned)(r->reasons[reason] > 0) << reason;
    return met;
}

static void count_reasons(const struct reading *r, unsigned long *counts)
{
    for (unsigned reason = 0; reason < REASONS; reason++)
        counts[reason] += r->reasons[reason];
}

/* Whether a planned sheet shows something new. */
static int planned_is_new(const struct reading *r)
{
    unsigned rounds = planner_plan_rounds(r->plan);
    unsigned by = r->method << 4 | (r->depots > 3 ? 3 : r->depots) << 2 | planner_time_table(r->sheet);
    unsigned fleet = marks_met(vehicle_of(r->sheet, 0), r->vehicles, PLANNER_VEHICLE_BYTES);
    int found = is_new(1, by << 16 | size_class(rounds) << 8 | size_class(r->aside));
    found |= is_new(2, by << 16 | size_class(r->rows) << 8 | r->vehicles);
    found |= is_new(3, by << 16 | incidents(r, rounds));
    found |= is_new(15, by << 16 | size_class(r->home_rests) << 8 | size_class(rounds));
    found |= is_new(17, by << 16 | reasons_met(r));
    found |= is_new(4, r->method << 16 | marks_met(row_of(r->sheet, 0), r->rows, PLANNER_ROW_BYTES));
    found |= is_new(5, r->method << 16 | fleet);
    found |= is_new(6, r->method << 16 | (unsigned)(planner_get(r->plan + PLANNER_PLAN_COST, 8) >> 52));
    if (r->rows < 12)
        found |= is_new(7, r->method << 16 | links_class(r));
    return found;
}

/* Whether a refused sheet does. */
static int refused_is_new(const struct sheet *s, uint32_t answer)
{
    if (s->len < PLANNER_HEADER_BYTES)
        return is_new(8, (unsigned)s->len);
    unsigned method = planner_sheet_method(s->bytes) <= PLANNER_SWEEP ? planner_sheet_method(s->bytes) : PLANNER_SWEEP + 1u;
    return is_new(9, answer << 16 | size_class(rows_in(s)) << 8 | size_class(vehicles_in(s)))
           | is_new(10, answer << 16 | method);
}

/* Asks the sheet; whether it was planned, and `r` tells of the plan then. */
static int ask(struct sheet *s, struct reading *r)
{
    sheets++;
    uint32_t answer = ask_with_plan(s->bytes, s->len, plan, s->plan_len);
    answers[answer]++;
    if (answer != PLANNER_ACCEPTED) {
        if (refused_is_new(s, answer))
            keep(&refused, s->bytes, s->len);
        return 0;
    }
    const char *fault = plan_fault(r, s->bytes, plan);
    if (fault != NULL) {
        fprintf(stderr, "fuzz: %s\n", fault);
        end("the plan is wrong");
    }
    planned[r->method]++;
    home_rests += r->home_rests;
    count_reasons(r, reasons);
    if (planned_is_new(r))
        keep(&accepted, s->bytes, s->len);
    return 1;
}

/* The limiter's answer by the check of the sheet and by the plan in's chains. */
static uint32_t expected_answer(struct sheet *s, const struct plan_in *p, struct reading *r)
{
    size_t wrong = p->len != plan_len_of(s->bytes, s->len) ? p->len : p->plan_out_len;
    uint32_t answer = check_sheet(s->bytes, s->len, wrong);
    if (answer != PLANNER_ACCEPTED)
        return answer;
    if (planner_depots(s->bytes) > 1)
        return PLANNER_SEVERAL_DEPOTS;
    if (!chains_are_good(r, s->bytes, (uint8_t *)p->bytes))
        return PLANNER_BAD_PLAN;
    int is_good = reasons_are_good(r);
    reasons_refused += !is_good;
    return is_good ? PLANNER_ACCEPTED : PLANNER_BAD_PLAN;
}

/* Whether a plan out shows something new. */
static int limited_is_new(const struct reading *r)
{
    unsigned before = planner_plan_rounds(r->plan_in), after = planner_plan_rounds(r->plan);
    int found = is_new(11, size_class(before) << 16 | size_class(after) << 8 | size_class(r->aside));
    found |= is_new(12, size_class(before - after) << 16 | incidents(r, after));
    found |= is_new(16, size_class(r->home_rests) << 8 | size_class(after));
    found |= is_new(18, reasons_met(r));
    if (r->rows < 12)
        found |= is_new(13, links_class(r));
    return found;
}

/* Whether the plan out has the rounds of the plan in, and no fewer. */
static int ask_to_limit(struct sheet *s, const struct plan_in *p)
{
    static struct reading r;
    struct limiting l = {s->bytes, p->bytes, s->len, p->len, p->plan_out_len, p->greatest};
    limits++;
    uint32_t answer = ask_limiter(l, plan_out);
    limit_answers[answer]++;
    if (answer != expected_answer(s, p, &r))
        end("another answer of the limiter's than its sheet and plan in ask for");
    if (answer != PLANNER_ACCEPTED)
        return 0;
    const char *fault = limit_fault(&r, s->bytes, (uint8_t *)p->bytes, p->greatest, plan_out);
    if (fault != NULL) {
        fprintf(stderr, "fuzz: %s\n", fault);
        end("the plan out is wrong");
    }
    dropped += planner_plan_rounds(p->bytes) > p->greatest;
    limited_home_rests += r.home_rests;
    count_reasons(&r, limited_reasons);
    if (limited_is_new(&r))
        keep(&accepted, s->bytes, s->len);
    return planner_plan_rounds(p->bytes) <= p->greatest;
}

/* The biller's answer likewise, or the dealer's. */
static uint32_t expected_of_plan(struct sheet *s, const struct asking *a)
{
    static struct reading r;
    size_t exact = plan_len_of(s->bytes, s->len);
    int fits = a->plan_len == exact && a->out_len == out_bytes(a->kind, planner_plan_rounds(a->plan));
    uint32_t answer = check_sheet(s->bytes, s->len, fits ? exact : exact + 1);
    if (answer != PLANNER_ACCEPTED)
        return answer;
    if (!plan_in_is_good(&r, s->bytes, (uint8_t *)a->plan))
        return PLANNER_BAD_PLAN;
    return is_out_of_range(a) ? own_refusal(a->kind) : PLANNER_ACCEPTED;
}

/* How many figures are whole numbers of their units, which one step more would exceed. */
static unsigned whole_in(const uint8_t *walked)
{
    unsigned whole = 0;
    for (unsigned k = 0; k < planner_plan_rounds(walked); k++) {
        double distance = planner_round_distance(walked, k), duration = planner_round_duration(walked, k);
        whole += distance > 0.0 && distance == 1000.0 * (double)begun_units(distance, 1000);
        whole += duration > 0.0 && duration == 900.0 * (double)begun_units(duration, 900);
    }
    return whole;
}

/* What is wrong with a bill, or a deal, by the figures of its rounds. */
static const char *fault_by(const struct asking *a, const uint8_t *walked)
{
    struct crew_totals t;
    const char *fault = a->kind == DEAL ? crew_fault(a, walked, out, &t) : charge_fault(a, walked, out);
    if (a->kind == DEAL) {
        crews_checked += planner_plan_rounds(a->plan);
        tied_rounds += t.tied_rounds;
        tied_crews += t.tied_crews;
    } else {
        charges_checked += planner_plan_rounds(a->plan);
        whole_units += whole_in(walked);
    }
    return fault;
}

/* `walked` has the figures of the plan in's rounds, or is NULL. */
static void ask_for(enum answer_kind kind, struct sheet *s, const struct plan_in *p, const uint8_t *walked)
{
    struct asking a = asking_with(kind, s, p);
    asking = kind == DEAL ? DEALING : BILLING;
    uint32_t answer = ask_about_plan(&a, out);
    plan_answers[kind][answer]++;
    if (answer != expected_of_plan(s, &a))
        end("another answer of the biller's or the dealer's than its sheet, plan and numbers ask for");
    if (answer != PLANNER_ACCEPTED)
        return;
    of_several_depots[kind] += planner_depots(s->bytes) > 1 && planner_plan_rounds(p->bytes) > 0;
    const char *fault = walked != NULL ? fault_by(&a, walked) : NULL;
    if (fault != NULL)
        end(fault);
}

/* The limiter, the biller and the dealer on the sheet that was asked last. Its own plan has its figures, and so has a plan out
   of as many rounds. */
static void ask_with_plan_in(struct sheet *s, int was_planned)
{
    asking = LIMITING;
    int is_whole_out = ask_to_limit(s, &plan_in);
    int is_own = was_planned && memcmp(plan_in.bytes, plan, PLANNER_PLAN_BYTES(rows_in(s))) == 0;
    const uint8_t *walked = is_own ? plan : is_whole_out ? plan_out : NULL;
    for (enum answer_kind kind = BILL; kind < ANSWER_KINDS; kind++)
        ask_for(kind, s, &plan_in, walked);
    asking = PLANNING;
}

static unsigned lines_in(const struct text *t)
{
    unsigned lines = 0;
    for (size_t i = 0; i < t->len; i++)
        lines += t->bytes[i] == '\n';
    return lines;
}

/* Imports a text, and keeps one that shows something new. */
static int32_t ask_to_import(const struct text *t)
{
    asking = IMPORTING;
    imports++;
    int32_t answer = ask_importer(t, imported, import_len);
    asking = PLANNING;
    uint32_t refusal = planner_refusal_in(answer);
    unsigned size = answer < 0 ? size_class((unsigned)t->len) : planner_rows(imported);
    import_answers[refusal]++;
    if (is_new(14, refusal << 16 | size_class(lines_in(t)) << 8 | size))
        keep(&texts, t->bytes, t->len);
    return answer;
}

static void make_text(struct text *t)
{
    if (texts.count == 0 || one_in(12)) {
        draw_fresh_text(t);
    } else {
        t->len = take_from(&texts, t->bytes);
        if (one_in(8)) {
            spare_text.len = take_from(&texts, spare_text.bytes);
            join_text(t, &spare_text);
        }
    }
    while (!one_in(3))
        mutate_text(t);
}

/* A buffer that every sheet fits in for the most part; then one as long as this one, or nearly so. */
static size_t draw_import_len(void)
{
    size_t exact = PLANNER_IMPORT_BYTES(1 + draw(9));
    const uint64_t lens[] = {0, exact - 1, exact, exact + 1, draw(MOST_IMPORT + 1)};
    return one_in(6) ? (size_t)PICK(lens) : MOST_IMPORT;
}

/* The next sheet as one of a text; whether there is one. */
static int import_next(struct sheet *s)
{
    make_text(&text);
    import_len = draw_import_len();
    int32_t answer = ask_to_import(&text);
    if (answer < 0)
        return 0;
    s->len = (size_t)answer;
    memcpy(s->bytes, imported, s->len);
    s->plan_len = plan_len_of(s->bytes, s->len);
    return 1;
}

static void splice(struct sheet *s)
{
    take(&spare);
    if (laid_out(s) && laid_out(&spare) && !(bold && one_in(2)))
        join_parts(s, &spare);
    else
        join_bytes(s, &spare);
}

/* A plan of the exact length for the most part. */
static size_t draw_plan_len(const struct sheet *s)
{
    size_t exact = plan_len_of(s->bytes, s->len);
    const uint64_t wrong[] = {0, 1, PLANNER_PLAN_HEADER_BYTES, exact - 1, exact + 1, draw(MOST_PLAN + 1)};
    return bold && one_in(12) ? (size_t)PICK(wrong) : exact;
}

/* The next sheet, and there always is one; `fitted` says that the last one was planned, and `r` of its plan. */
static int make_next(struct sheet *s, int fitted, const struct reading *r)
{
    bold = !fitted && one_in(3);
    if (fitted) {
        fit(s, r);
    } else if (one_in(50)) {
        draw_fresh(s);
    } else {
        take(s);
        if (one_in(8))
            splice(s);
        do
            mutate(s);
        while (!one_in(3));
    }
    if (!bold && laid_out(s))
        mend(s);
    s->plan_len = draw_plan_len(s);
    return 1;
}

static void run(double seconds, unsigned long seed)
{
    static struct reading r;
    struct timespec began, now;
    int was_planned = 0;
    state = (2 * seed + 1) * UINT64_C(0x9e3779b97f4a7c15);
    clock_gettime(CLOCK_MONOTONIC, &began);
    for (int i = 0; i < 500; i++) {
        draw_fresh(&asked);
        asked.plan_len = plan_len_of(asked.bytes, asked.len);
        was_planned = ask(&asked, &r);
    }
    do {
        if (one_in(4) ? import_next(&asked) : make_next(&asked, was_planned && one_in(3), &r)) {
            was_planned = ask(&asked, &r);
            if (laid_out(&asked) && rows_in(&asked) <= PLANNER_MOST_ROWS) {
                make_plan_in(&plan_in, &asked, was_planned ? plan : NULL);
                ask_with_plan_in(&asked, was_planned);
            }
        }
        clock_gettime(CLOCK_MONOTONIC, &now);
    } while ((double)(now.tv_sec - began.tv_sec) + 1e-9 * (double)(now.tv_nsec - began.tv_nsec) < seconds);
}

static size_t read_file(const char *name, uint8_t *bytes, size_t most)
{
    FILE *file = fopen(name, "rb");
    if (file == NULL) {
        perror(name);
        exit(2);
    }
    size_t len = fread(bytes, 1, most, file);
    fclose(file);
    return len;
}

static size_t plan_bytes(const char *word)
{
    size_t len = strtoul(word, NULL, 10);
    return len < MOST_PLAN ? len : MOST_PLAN;
}

static int replay(const char *name, const char *plan_len)
{
    static struct reading r;
    asked.len = read_file(name, asked.bytes, MOST_SHEET);
    asked.plan_len = plan_len != NULL ? plan_bytes(plan_len) : plan_len_of(asked.bytes, asked.len);
    ask(&asked, &r);
    for (uint32_t answer = 0; answer <= PLANNER_NO_VEHICLE; answer++)
        if (answers[answer] > 0)
            printf("fuzz: answer %u\n", (unsigned)answer);
    return 0;
}

static int replay_limit(const char *sheet, const char *plan_name, const char *greatest, const char *out_len)
{
    asked.len = read_file(sheet, asked.bytes, MOST_SHEET);
    plan_in.len = read_file(plan_name, plan_in.bytes, MOST_PLAN);
    plan_in.greatest = (uint32_t)strtoul(greatest, NULL, 10);
    plan_in.plan_out_len = out_len != NULL ? plan_bytes(out_len) : plan_len_of(asked.bytes, asked.len);
    asking = LIMITING;
    ask_to_limit(&asked, &plan_in);
    for (uint32_t answer = 0; answer <= PLANNER_BAD_PLAN; answer++)
        if (limit_answers[answer] > 0)
            printf("fuzz: answer %u\n", (unsigned)answer);
    return 0;
}

static uint32_t number_of(const char *word)
{
    return (uint32_t)strtoul(word, NULL, 10);
}

/* A sheet, a plan, and what is asked: a bill's three numbers or a deal's one. */
static int replay_asking(enum answer_kind kind, char **words, const char *out_len)
{
    static struct reading r;
    asked.len = read_file(words[0], asked.bytes, MOST_SHEET);
    asked.plan_len = plan_len_of(asked.bytes, asked.len);
    plan_in.len = read_file(words[1], plan_in.bytes, MOST_PLAN);
    plan_in.greatest = UINT32_MAX;
    plan_in.plan_out_len = asked.plan_len;
    for (enum answer_kind each = BILL; each < ANSWER_KINDS; each++) {
        size_t exact = out_bytes(each, planner_plan_rounds(plan_in.bytes));
        size_t len = each == kind && out_len != NULL ? strtoul(out_len, NULL, 10) : exact;
        plan_in.out_len[each] = len < MOST_OUT ? len : MOST_OUT;
    }
    plan_in.crews = kind == DEAL ? number_of(words[2]) : 1;
    if (kind == BILL) {
        plan_in.distance_rate = number_of(words[2]);
        plan_in.duration_rate = number_of(words[3]);
        plan_in.least = number_of(words[4]);
    }
    ask_with_plan_in(&asked, ask(&asked, &r));
    for (uint32_t answer = 0; answer <= PLANNER_BAD_CREWS; answer++)
        if (plan_answers[kind][answer] > 0)
            printf("fuzz: answer %u\n", (unsigned)answer);
    return 0;
}

static int replay_import(const char *name, const char *sheet_len)
{
    text.len = read_file(name, text.bytes, MOST_TEXT);
    import_len = sheet_len != NULL ? strtoul(sheet_len, NULL, 10) : MOST_IMPORT;
    import_len = import_len < MOST_IMPORT ? import_len : MOST_IMPORT;
    printf("fuzz: answer %d\n", (int)ask_to_import(&text));
    return 0;
}

static void print_counts(const char *what, const unsigned long *counts, unsigned last)
{
    printf("fuzz: %s", what);
    for (unsigned i = 0; i <= last; i++)
        printf(" %u: %lu%s", i, counts[i], i < last ? "," : "\n");
}

/* Whether some reason from `first` to `last` was not seen. */
static int lacks_reason(const unsigned long *counts, unsigned first, unsigned last)
{
    for (unsigned reason = first; reason <= last; reason++)
        if (counts[reason] == 0)
            return 1;
    return 0;
}

static int report(void)
{
    int lacking = home_rests == 0 || limited_home_rests == 0 || dropped == 0 || import_answers[PLANNER_ACCEPTED] == 0
                  || of_several_depots[BILL] == 0 || charges_checked == 0 || whole_units == 0 || reasons_refused == 0
                  || of_several_depots[DEAL] == 0 || crews_checked == 0 || tied_rounds == 0 || tied_crews == 0
                  || plan_answers[DEAL][PLANNER_BAD_CREWS] == 0
                  || lacks_reason(reasons, PLANNER_ASIDE_NO_VEHICLE, PLANNER_ASIDE_FLEET)
                  || lacks_reason(limited_reasons, PLANNER_ASIDE_UNTOLD, PLANNER_ASIDE_LIMITED);
    printf("fuzz: %lu sheets, %lu plans in and %lu texts, %lu calls\n", sheets, limits, imports, calls);
    print_counts("answers", answers, PLANNER_NO_VEHICLE);
    print_counts("planned by method", planned, PLANNER_SWEEP);
    print_counts("stops set aside by reason", reasons, PLANNER_ASIDE_LIMITED);
    print_counts("answers of the limiter", limit_answers, PLANNER_BAD_PLAN);
    printf("fuzz: %lu plans out with fewer rounds; rests at home: %lu in plans, %lu in plans out\n", dropped, home_rests,
           limited_home_rests);
    print_counts("stops set aside in plans out by reason", limited_reasons, PLANNER_ASIDE_LIMITED);
    printf("fuzz: %lu plans in refused for a reason alone\n", reasons_refused);
    print_counts("answers of the biller", plan_answers[BILL], PLANNER_BAD_RATE);
    printf("fuzz: %lu plans of several depots billed; %lu charges held to their figures, of which %lu are whole units\n",
           of_several_depots[BILL], charges_checked, whole_units);
    print_counts("answers of the dealer", plan_answers[DEAL], PLANNER_BAD_CREWS);
    printf("fuzz: %lu plans of several depots dealt; %lu rounds held to their durations, %lu ties of rounds and %lu of crews\n",
           of_several_depots[DEAL], crews_checked, tied_rounds, tied_crews);
    print_counts("answers of the importer", import_answers, PLANNER_TOO_MANY_CUSTOMERS);
    printf("fuzz: corpus of %u sheets planned, %u refused and %u texts, %u signals\n", accepted.count, refused.count,
           texts.count, signal_count);
    if (lacking)
        fprintf(stderr, "fuzz: nothing was planned or limited, with a rest at home, for each reason, or billed, dealt or imported\n");
    return lacking;
}

int main(int argc, char **argv)
{
    open_places();
    if (argc > 2 && strcmp(argv[1], "replay") == 0)
        return replay(argv[2], argc > 3 ? argv[3] : NULL);
    if (argc > 4 && strcmp(argv[1], "limit") == 0)
        return replay_limit(argv[2], argv[3], argv[4], argc > 5 ? argv[5] : NULL);
    if (argc > 6 && strcmp(argv[1], "bill") == 0)
        return replay_asking(BILL, argv + 2, argc > 7 ? argv[7] : NULL);
    if (argc > 4 && strcmp(argv[1], "deal") == 0)
        return replay_asking(DEAL, argv + 2, argc > 5 ? argv[5] : NULL);
    if (argc > 2 && strcmp(argv[1], "import") == 0)
        return replay_import(argv[2], argc > 3 ? argv[3] : NULL);
    double seconds = argc > 1 ? strtod(argv[1], NULL) : 0.0;
    unsigned long seed = argc > 2 ? strtoul(argv[2], NULL, 10) : (unsigned long)time(NULL);
    if (argc > 3 || seconds <= 0.0) {
        fprintf(stderr, "usage: fuzz SECONDS [SEED] | fuzz replay FILE [PLAN_BYTES] | "
                        "fuzz limit SHEET PLAN GREATEST [PLAN_OUT_BYTES] | "
                        "fuzz bill SHEET PLAN RATE RATE LEAST [BILL_BYTES] | fuzz deal SHEET PLAN CREWS [DEAL_BYTES] | "
                        "fuzz import TEXT [SHEET_BYTES]\n");
        return 2;
    }
    printf("fuzz: %g s, seed %lu\n", seconds, seed);
    fflush(stdout);
    watch_calls();
    run(seconds, seed);
    return report();
}
