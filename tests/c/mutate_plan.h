/*
 * Plans for the limiter, the biller and the dealer to take, and mutations of them that know
 * their form: links, the number of rounds, ids, reasons, and what is not read.
 */
#ifndef MUTATE_PLAN_H
#define MUTATE_PLAN_H

#include "mutate.h"

/* A plan in for the sheet that it was made for, and the rest of a call of each. */
struct plan_in {
    uint8_t bytes[MOST_PLAN];
    size_t len, plan_out_len, out_len[ANSWER_KINDS];
    uint32_t greatest, distance_rate, duration_rate, least, crews;
};

/* Where any link stands: of a round, of the stops set aside, of a row. */
static inline uint8_t *any_link(uint8_t *plan, unsigned rows)
{
    unsigned any = draw(rows);
    switch (draw(4)) {
    case 0: return round_record(plan, any) + PLANNER_ROUND_FIRST;
    case 1: return plan + PLANNER_PLAN_ASIDE;
    default: return stop_of(plan, rows, any) + PLANNER_STOP_NEXT;
    }
}

/* To a stop, to itself, to none, or beyond; or two that change places. */
static inline void change_link(uint8_t *plan, unsigned rows)
{
    uint8_t *link = any_link(plan, rows), *other = any_link(plan, rows);
    uint64_t had = planner_get(link, 2);
    const uint64_t to[] = {0, draw(rows), draw(rows), rows, rows + 1, had ^ 0x100, had ^ 0x8000, 0xffff};
    if (one_in(2)) {
        planner_put(link, 2, planner_get(other, 2));
        planner_put(other, 2, had);
    } else {
        planner_put(link, 2, PICK(to));
    }
}

static inline void change_round_count(uint8_t *plan, unsigned rows)
{
    uint64_t had = planner_plan_rounds(plan);
    const uint64_t to[] = {0, had + 1, had - (had > 0), rows, rows + 1, draw(rows + 2), had ^ 0x100, 0xffff};
    planner_set_plan_rounds(plan, (unsigned)PICK(to));
}

static inline void change_round_id(struct sheet *s, uint8_t *plan, unsigned rows)
{
    unsigned k = draw(rows);
    if (vehicles_in(s) > 0 && !one_in(3))
        planner_set_round_id(plan, k, planner_vehicle_id(s->bytes, draw(vehicles_in(s))));
    else
        planner_set_round_id(plan, k, planner_round_id(plan, k) ^ UINT32_C(1) << draw(32));
}

/* Of any row, so of stops on rounds and of depots too, where it is not read. */
static inline void change_reason(uint8_t *plan, unsigned rows)
{
    uint8_t *reason = stop_of(plan, rows, draw(rows)) + PLANNER_STOP_REASON;
    uint64_t had = planner_get(reason, 2);
    const uint64_t to[] = {0, draw(PLANNER_ASIDE_LIMITED), PLANNER_ASIDE_LIMITED, PLANNER_ASIDE_LIMITED + 1, had ^ 0x100,
                           had ^ 0x8000, had << 8, 0xffff};
    planner_put(reason, 2, PICK(to));
}

/* Noise behind a plan's links and reasons, so that what is not read differs. */
static inline void deal_on_noise(struct sheet *s, uint8_t *plan)
{
    for (size_t i = 0; i < PLANNER_PLAN_BYTES(rows_in(s)); i++)
        plan[i] = (uint8_t)next_random(&state);
    deal_plan(plan, s->bytes, draw(rows_in(s) + 1), one_in(4), &state);
}

static inline void mutate_plan(struct sheet *s, uint8_t *plan)
{
    unsigned rows = rows_in(s);
    switch (rows > 0 ? draw(7) : 6) {
    case 0:
    case 1: change_link(plan, rows); break;
    case 2: change_round_count(plan, rows); break;
    case 3: change_round_id(s, plan, rows); break;
    case 4: change_reason(plan, rows); break;
    default: plan[draw((unsigned)PLANNER_PLAN_BYTES(rows))] = (uint8_t)next_random(&state); break;
    }
}

static inline uint32_t draw_cents(void)
{
    const uint64_t within[] = {0, 1, 7, draw(1000), draw(PLANNER_MOST_RATE), PLANNER_MOST_RATE - 1, PLANNER_MOST_RATE};
    const uint64_t beyond[] = {PLANNER_MOST_RATE + 1, UINT64_C(0x80000000), UINT64_C(0xffffffff), next_random(&state)};
    return (uint32_t)(one_in(60) ? PICK(beyond) : PICK(within));
}

static inline uint32_t draw_crews(void)
{
    const uint64_t within[] = {1, 2, 2, 3, 1 + draw(PLANNER_MOST_CREWS), PLANNER_MOST_CREWS};
    const uint64_t beyond[] = {0, PLANNER_MOST_CREWS + 1, 255, 256 + draw(9), UINT64_C(0x10000) + draw(9),
                               UINT64_C(0xffffffff), next_random(&state)};
    return (uint32_t)(one_in(30) ? PICK(beyond) : PICK(within));
}

/* For a number of rounds far above the rows there is no room: what is written for it has another length. */
static inline size_t draw_out_len(enum answer_kind kind, unsigned rounds, unsigned rows)
{
    size_t exact = out_bytes(kind, rounds);
    const uint64_t wrong[] = {0, exact - 1, exact + 1, exact - 8, exact + 8, out_bytes(kind, rows), draw(MOST_OUT + 1)};
    size_t len = one_in(20) ? (size_t)PICK(wrong) : exact;
    return len < MOST_OUT ? len : MOST_OUT;
}

/* For a sheet whose fields can be found: its own plan if it has one, or one dealt, at times mutated. */
static inline void make_plan_in(struct plan_in *p, struct sheet *s, const uint8_t *own)
{
    size_t exact = PLANNER_PLAN_BYTES(rows_in(s));
    const uint64_t lens[] = {exact - 1, exact + 1, 0, exact - 16, draw(MOST_PLAN + 1)};
    if (own != NULL && one_in(2))
        memcpy(p->bytes, own, exact);
    else
        deal_on_noise(s, p->bytes);
    while (one_in(2))
        mutate_plan(s, p->bytes);
    unsigned rounds = planner_plan_rounds(p->bytes);
    const uint64_t wide[] = {UINT64_C(0x100), UINT64_C(0x10000), UINT64_C(0x80000000), UINT64_C(0xffffffff)};
    p->greatest = (uint32_t)(one_in(12) ? PICK(wide) | draw(4) : draw(rounds % 128 + 2));
    p->len = one_in(40) ? (size_t)PICK(lens) : exact;
    p->plan_out_len = one_in(40) ? (size_t)PICK(lens) : exact;
    for (enum answer_kind kind = BILL; kind < ANSWER_KINDS; kind++)
        p->out_len[kind] = draw_out_len(kind, rounds, rows_in(s));
    p->distance_rate = draw_cents();
    p->duration_rate = draw_cents();
    p->least = draw_cents();
    p->crews = draw_crews();
}

/* The call for a bill or a deal of a plan in. */
static inline struct asking asking_with(enum answer_kind kind, const struct sheet *s, const struct plan_in *p)
{
    struct asking a = {kind, s->bytes, p->bytes, s->len, p->len, p->out_len[kind], p->distance_rate, p->duration_rate,
                       p->least, p->crews};
    return a;
}

#endif
