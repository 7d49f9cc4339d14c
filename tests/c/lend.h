/*
 * Lends sheets, plans and texts to the planner, the limiter, the importer, the biller and
 * the dealer up against pages that nobody may touch, so that one byte read or written
 * outside them ends the run: first with such a page right after the last byte of each,
 * then right before the first. What is only read is lent by a view of its pages that can't
 * be written, so a write there ends the run too.
 *
 * Define _GNU_SOURCE before the first header of a program that includes this one.
 */
#ifndef LEND_H
#define LEND_H

#include <signal.h>
#include <stdint.h>
#include <string.h>
#include <sys/mman.h>
#include <unistd.h>

#include "bill_check.h"
#include "deal_check.h"
#include "planner_fields.h"
#include "texts.h"

/* The longest sheet of one row and one vehicle too many, and the longest plan, each with one byte more; the longest sheet
   of a text with some more; the bill, and so the deal, of more rounds than a byte counts. */
enum { MOST_SHEET = PLANNER_SHEET_BYTES(PLANNER_MOST_ROWS + 1, PLANNER_MOST_VEHICLES + 1, 1) + 1 };
enum { MOST_PLAN = PLANNER_PLAN_BYTES(PLANNER_MOST_ROWS) + 1 };
enum { MOST_IMPORT = PLANNER_IMPORT_BYTES(PLANNER_MOST_ROWS) + 64 };
enum { MOST_OUT = PLANNER_BILL_BYTES(300) + 1 };

/* Says what went wrong and ends the run with status 1; the program's own. */
static void end(const char *what);

/* Pages to lend, a closed one on either side, and the view of them that this program writes by. */
struct room {
    uint8_t *lent;
    uint8_t *own;
    size_t len;
};

/* Rooms whose bytes are all `around`, but for what is lent at one end of them. */
struct place {
    struct room sheets, plans_in, plans, texts, imports, outs;
    int at_front;
    int around;
};

/* One call of the limiter. */
struct limiting {
    const uint8_t *sheet, *plan_in;
    size_t len, plan_in_len, plan_out_len;
    uint32_t greatest;
};

static struct place at_back, at_front;
static unsigned long calls;

static inline void stopped(int signal_number)
{
    end(signal_number == SIGSEGV || signal_number == SIGBUS
            ? "a byte that was not lent was touched, or one written that is only read"
            : "the call was stopped by a signal");
}

/* On a stack of their own, so that a call that overflows its stack is told too. */
static inline void tell_signals(void)
{
    static const int told[] = {SIGSEGV, SIGBUS, SIGILL, SIGFPE, SIGTRAP};
    static uint8_t handler_stack[1 << 16];
    stack_t stack;
    struct sigaction act;
    memset(&stack, 0, sizeof stack);
    stack.ss_sp = handler_stack;
    stack.ss_size = sizeof handler_stack;
    memset(&act, 0, sizeof act);
    act.sa_handler = stopped;
    act.sa_flags = SA_ONSTACK;
    if (sigaltstack(&stack, NULL) != 0)
        end("no stack for the signal handler");
    for (size_t i = 0; i < sizeof told / sizeof told[0]; i++)
        if (sigaction(told[i], &act, NULL) != 0)
            end("no signal handler");
}

static inline struct room open_room(size_t most, int lent_as, int around)
{
    size_t page = (size_t)sysconf(_SC_PAGESIZE);
    struct room room;
    room.len = (most + page - 1) / page * page;
    int pages = memfd_create("lent", 0);
    uint8_t *closed = mmap(NULL, room.len + 2 * page, PROT_NONE, MAP_PRIVATE | MAP_ANONYMOUS, -1, 0);
    if (pages < 0 || ftruncate(pages, (off_t)room.len) != 0 || closed == MAP_FAILED)
        end("no pages to lend");
    room.lent = mmap(closed + page, room.len, lent_as, MAP_SHARED | MAP_FIXED, pages, 0);
    room.own = mmap(NULL, room.len, PROT_READ | PROT_WRITE, MAP_SHARED, pages, 0);
    if (room.lent == MAP_FAILED || room.own == MAP_FAILED || close(pages) != 0)
        end("pages not opened");
    memset(room.own, around, room.len);
    return room;
}

static inline struct place open_place(int front, int around)
{
    struct place place;
    place.sheets = open_room(MOST_SHEET, PROT_READ, around);
    place.plans_in = open_room(MOST_PLAN, PROT_READ, around);
    place.plans = open_room(MOST_PLAN, PROT_READ | PROT_WRITE, around);
    place.texts = open_room(MOST_TEXT, PROT_READ, around);
    place.imports = open_room(MOST_IMPORT, PROT_READ | PROT_WRITE, around);
    place.outs = open_room(MOST_OUT, PROT_READ | PROT_WRITE, around);
    place.at_front = front;
    place.around = around;
    return place;
}

static inline void open_places(void)
{
    tell_signals();
    at_back = open_place(0, 0xff);
    at_front = open_place(1, 0);
}

/* Whether `len` bytes are all `value`: the first is, and each is as the one before it. */
static inline int all_are(const uint8_t *at, size_t len, int value)
{
    return len == 0 || (at[0] == (uint8_t)value && memcmp(at, at + 1, len - 1) == 0);
}

/* Where so many bytes stand in a room. */
static inline size_t end_of(const struct place *place, const struct room *room, size_t len)
{
    return place->at_front ? 0 : room->len - len;
}

/* A copy of bytes that are only read. */
static inline const uint8_t *lend_copy(const struct place *place, const struct room *room, const uint8_t *bytes, size_t len)
{
    size_t at = end_of(place, room, len);
    memcpy(room->own + at, bytes, len);
    return room->lent + at;
}

static inline void take_back(const struct place *place, const struct room *room, const uint8_t *bytes, size_t len)
{
    uint8_t *own = room->own + end_of(place, room, len);
    if (memcmp(own, bytes, len) != 0)
        end("the sheet, the plan in or the text was changed");
    memset(own, place->around, len);
}

/* A buffer to write to. */
static inline uint8_t *lend_buffer(const struct place *place, const struct room *room, size_t len)
{
    memset(room->own, place->around, room->len);
    calls++;
    return room->lent + end_of(place, room, len);
}

/* What stands in the buffer after the answer, which says how much of it is written, is copied out. */
static inline void take_buffer(const struct place *place, const struct room *room, size_t written, uint8_t *out, size_t len)
{
    size_t at = end_of(place, room, len), after = at + written;
    if (written > len)
        end("more is written than was lent");
    if (written == 0 && !all_are(room->own + at, len, place->around))
        end("a refused call changed the buffer");
    if (!all_are(room->own, at, place->around) || !all_are(room->own + after, room->len - after, place->around))
        end("a byte outside the plan, or after the sheet, was changed");
    memcpy(out, room->own + at, len);
}

/* How many bytes of a buffer an answer fills, the whole of it or none; and how many one of the importer's writes. */
static inline size_t filled(uint32_t answer, size_t len)
{
    return answer == PLANNER_ACCEPTED ? len : 0;
}

static inline size_t sheet_written(int32_t answer)
{
    return answer > 0 ? (size_t)answer : 0;
}

/* The planner's answer to a copy of the sheet. */
static inline uint32_t lend(const struct place *place, const uint8_t *sheet, size_t len, size_t plan_len, uint8_t *out)
{
    const uint8_t *lent = lend_copy(place, &place->sheets, sheet, len);
    uint32_t answer = plan_rounds(lent, len, lend_buffer(place, &place->plans, plan_len), plan_len);
    if (check_sheet(lent, len, plan_len) != answer)
        end("check_sheet says otherwise");
    take_back(place, &place->sheets, sheet, len);
    take_buffer(place, &place->plans, filled(answer, plan_len), out, plan_len);
    return answer;
}

/* The limiter's answer to copies of sheet and plan in. */
static inline uint32_t lend_limiting(const struct place *place, struct limiting l, uint8_t *out)
{
    const uint8_t *sheet = lend_copy(place, &place->sheets, l.sheet, l.len);
    const uint8_t *plan_in = lend_copy(place, &place->plans_in, l.plan_in, l.plan_in_len);
    uint8_t *plan_out = lend_buffer(place, &place->plans, l.plan_out_len);
    uint32_t answer = limit_rounds(sheet, l.len, plan_in, l.plan_in_len, l.greatest, plan_out, l.plan_out_len);
    take_back(place, &place->sheets, l.sheet, l.len);
    take_back(place, &place->plans_in, l.plan_in, l.plan_in_len);
    take_buffer(place, &place->plans, filled(answer, l.plan_out_len), out, l.plan_out_len);
    return answer;
}

/* The importer's answer to a copy of the text. */
static inline int32_t lend_text(const struct place *place, const struct text *t, uint8_t *out, size_t sheet_len)
{
    const uint8_t *text = lend_copy(place, &place->texts, t->bytes, t->len);
    int32_t answer = import_solomon(text, t->len, lend_buffer(place, &place->imports, sheet_len), sheet_len);
    take_back(place, &place->texts, t->bytes, t->len);
    take_buffer(place, &place->imports, sheet_written(answer), out, sheet_len);
    return answer;
}

/* The biller's answer to copies of sheet and plan, or the dealer's. */
static inline uint32_t lend_asking(const struct place *place, const struct asking *a, uint8_t *out)
{
    const uint8_t *sheet = lend_copy(place, &place->sheets, a->sheet, a->len);
    const uint8_t *plan = lend_copy(place, &place->plans_in, a->plan, a->plan_len);
    uint32_t answer = ask_of(a, sheet, plan, lend_buffer(place, &place->outs, a->out_len));
    take_back(place, &place->sheets, a->sheet, a->len);
    take_back(place, &place->plans_in, a->plan, a->plan_len);
    take_buffer(place, &place->outs, filled(answer, a->out_len), out, a->out_len);
    return answer;
}

/* Two answers that have to be one, and so has what they wrote. */
static inline void same(int64_t answer, int64_t other_answer, const uint8_t *written, const uint8_t *other, size_t len)
{
    if (other_answer != answer)
        end("the answer depends on the bytes around");
    if (memcmp(written, other, len) != 0)
        end("what is written depends on the bytes around, or on those it is written over");
}

static uint8_t other_plan[MOST_PLAN], other_import[MOST_IMPORT], other_out[MOST_OUT];

/* The answer, which is the same at either end, and so is the plan, of MOST_PLAN bytes of room. */
static inline uint32_t ask_with_plan(const uint8_t *sheet, size_t len, uint8_t *plan, size_t plan_len)
{
    uint32_t answer = lend(&at_back, sheet, len, plan_len, plan);
    uint32_t other = lend(&at_front, sheet, len, plan_len, other_plan);
    same(answer, other, plan, other_plan, filled(answer, plan_len));
    if (answer > PLANNER_NO_VEHICLE)
        end("an answer that is no refusal");
    return answer;
}

/* The same of the limiter. */
static inline uint32_t ask_limiter(struct limiting l, uint8_t *plan_out)
{
    uint32_t answer = lend_limiting(&at_back, l, plan_out);
    uint32_t other = lend_limiting(&at_front, l, other_plan);
    same(answer, other, plan_out, other_plan, filled(answer, l.plan_out_len));
    if (answer > PLANNER_BAD_PLAN)
        end("an answer that is no refusal");
    return answer;
}

static inline int is_import_refusal(uint32_t refusal)
{
    return refusal == PLANNER_BAD_TEXT || refusal == PLANNER_TOO_MANY_CUSTOMERS || refusal == PLANNER_BAD_ROW
           || refusal == PLANNER_BAD_VEHICLE || refusal == PLANNER_BAD_LENGTH;
}

/* The same of the importer; `sheet` has MOST_IMPORT bytes of room. What it writes is a sheet that would be planned. */
static inline int32_t ask_importer(const struct text *t, uint8_t *sheet, size_t sheet_len)
{
    int32_t answer = lend_text(&at_back, t, sheet, sheet_len);
    int32_t other = lend_text(&at_front, t, other_import, sheet_len);
    same(answer, other, sheet, other_import, sheet_written(answer));
    if (answer < 0 ? !is_import_refusal(planner_refusal_in(answer)) : answer < (int32_t)PLANNER_IMPORT_BYTES(1))
        end("an answer that is no refusal and no sheet's length");
    if (answer > 0 && check_sheet(sheet, (size_t)answer, PLANNER_PLAN_BYTES(planner_rows(sheet))) != PLANNER_ACCEPTED)
        end("the sheet of a text is not accepted");
    return answer;
}

static inline int is_answer_of(enum answer_kind kind, uint32_t answer)
{
    return answer <= PLANNER_NO_VEHICLE || answer == PLANNER_BAD_PLAN || answer == own_refusal(kind);
}

/* The same of the biller and the dealer; `out` has MOST_OUT bytes of room. What is written is a bill by the tariff's own rules,
   or a crew for each round. */
static inline uint32_t ask_about_plan(const struct asking *a, uint8_t *out)
{
    uint32_t answer = lend_asking(&at_back, a, out);
    uint32_t other = lend_asking(&at_front, a, other_out);
    same(answer, other, out, other_out, filled(answer, a->out_len));
    if (!is_answer_of(a->kind, answer))
        end("an answer that is no refusal");
    if (answer != PLANNER_ACCEPTED)
        return answer;
    const char *fault = a->kind == DEAL ? deal_fault(a, out) : bill_fault(a, out);
    if (fault != NULL)
        end(fault);
    return answer;
}

/* The exact length of a plan by what the sheet's header says, up to the longest. */
static inline size_t plan_len_of(const uint8_t *sheet, size_t len)
{
    unsigned rows = len < PLANNER_AT_ROWS + 2 ? 0 : planner_rows(sheet);
    return PLANNER_PLAN_BYTES(rows < PLANNER_MOST_ROWS ? rows : PLANNER_MOST_ROWS);
}

#endif
