/*
 * The round planner, for C and C++ hosts: rounds are routes, depot to depot. Link
 * the archive libplanner.a that `tools/archive planner` writes; it is for x86-64
 * Linux. planner_fields.h beside this file reads and writes every field by name.
 *
 * A ROUND leaves its vehicle's depot at time 0, serves its stops in order and goes
 * back to that depot.
 *
 *   time      Arrival is the departure from the point before plus the time of the
 *             leg. Before ready the vehicle waits. Departure is the later of arrival
 *             and ready, plus service; the duration is the time of the return.
 *   window    Ready to due, on a row with PLANNER_WINDOW. Arrival = due is in time.
 *             Without PLANNER_PENALTY the window is hard: a later arrival breaks it.
 *             With it the window is soft: a later arrival is allowed and costs the
 *             penalty times the lateness. A penalty without a window does nothing.
 *             A depot's window is the depot's own: its due is the latest return, with
 *             or without a penalty, and its ready does nothing. It switches the checks
 *             on, with a penalty the rules of soft windows too. Plain nearest
 *             neighbour passes over it on a vehicle without a rest.
 *   rest      Due on a vehicle with PLANNER_REST, unless the round without it is
 *             back by earliest. It stands right before the service of one stop, any
 *             one; it starts at the later of arrival and earliest, not after latest,
 *             and its end is what the stop's window is held against.
 *             With PLANNER_REST_AT_HOME it may also stand at the depot, on return. That
 *             is tried only where a round would be turned down otherwise, for a window,
 *             the rest, a maximum or the depot's due. The round without a rest must
 *             miss no hard window; the rest starts at the later of its return and
 *             earliest, not after latest, and its end is the duration, which has to
 *             keep the limits as the distance has. All other figures are those of the
 *             round without a rest. A round that this does not mend keeps the figures
 *             that it has without the mark.
 *   limits    Demands sum to at most the capacity; distance and duration are at most
 *             the marked maxima, the maximum itself included, and the duration at most
 *             the due of the vehicle's depot, where that row has a window.
 *   cost      Fixed cost + cost per distance * (distance + lateness cost), where the
 *             lateness cost sums penalty * lateness. Time alone costs nothing.
 *   units     Any, the same throughout: one for distances and the maximum distance;
 *             one for times, service, windows, rests and the maximum duration; money
 *             for the cost and the fixed cost, money per distance for the cost per
 *             distance, distance per time for a penalty. Without a time table
 *             distances serve as times, so the first two units are one. A bill is in
 *             cents, by a tariff of its own that knows nothing of the cost. A deal
 *             counts durations in whole units of time.
 *   place     Coordinates serve the sweep's order by angle alone: a plan's distances
 *             are the sheet's own. Only import_solomon works distances out from
 *             coordinates, for the sheet that it writes.
 *
 * A CALL, and this holds of all six functions:
 *
 *   - has an answer for every byte string of every length, always returns, and gives
 *     the same bytes the same answer;
 *   - reads and writes no byte but those lent, at any address: no alignment is asked.
 *     The caller passes no NULL, and nothing to write to that overlaps what is read;
 *   - where it refuses, leaves every byte lent as it was;
 *   - allocates nothing, keeps no state, and calls nothing but memcpy and memset,
 *     which are all that the archive leaves to be linked;
 *   - may run on several threads at once, each with a buffer of its own to write to.
 *     During a call no other thread may write what it reads, or touch what it writes.
 *
 * THE NAMES check_sheet, plan_rounds, limit_rounds, import_solomon, bill_rounds and
 * deal_rounds are all that the archive exports. Where one clashes, rename it, here and in
 * the archive:
 *
 *     objcopy --redefine-sym plan_rounds=our_plan_rounds libplanner.a libours.a
 *     #define plan_rounds our_plan_rounds
 *     #include "planner.h"
 */
#ifndef PLANNER_H
#define PLANNER_H

#include <stddef.h>
#include <stdint.h>

/* The major number rises where bytes that a version accepts are refused or get another
   meaning, the minor one where something is added. */
#define PLANNER_VERSION_MAJOR 3
#define PLANNER_VERSION_MINOR 1
#define PLANNER_VERSION "3.1"

/* Bytes of stack to keep free for a call, beside what its thread takes otherwise:
   half as much again, or more, as any call was seen to take (tests/c/stack.c).
   PLANNER_STACK_SAVINGS is for plan_rounds on a sheet of PLANNER_SAVINGS,
   PLANNER_STACK for every other call. */
#define PLANNER_STACK_SAVINGS 327680
#define PLANNER_STACK 8192

#ifdef __cplusplus
extern "C" {
#endif

/*
 * THE SHEET is one run of bytes, little-endian, with no padding. f64 is an IEEE 754
 * double, given by its eight bytes. NaN, the infinities and negative zero are out of
 * every range. Rows and vehicles are numbered from 0.
 *
 * Header, at byte 0:
 *
 *   offset  type     field
 *        0  u16      rows R, 0 to 101
 *        2  u16      vehicles V, 0 to 16
 *        4  u8       method, see enum planner_method
 *        5  u8       time table, 0 or 1
 *        6  10 bytes zero
 *
 * Row r, at byte 16 + 48 * r. The depots are the leading rows marked as such;
 * row 0 is a depot even unmarked.
 *
 *   offset  type     field
 *        0  i32      horizontal coordinate, -1,000,000 to 1,000,000
 *        4  i32      vertical coordinate, the same
 *        8  i32      demand, 0 to 1,000,000
 *       12  u32      marks, 0 to 7: sum of PLANNER_DEPOT, PLANNER_WINDOW and
 *                    PLANNER_PENALTY
 *       16  f64      service, 0 to 10^9
 *       24  f64      ready, 0 to due       (zero without PLANNER_WINDOW)
 *       32  f64      due, ready to 10^9    (zero without PLANNER_WINDOW)
 *       40  f64      penalty, 0 to 10^6    (zero without PLANNER_PENALTY)
 *
 * Vehicle v, at byte 16 + 48 * R + 72 * v:
 *
 *   offset  type     field
 *        0  u32      id, different for each vehicle
 *        4  u32      depot, a row below the number of depots
 *        8  i32      capacity, 0 or more
 *       12  u32      marks, 0 to 15: sum of PLANNER_MAX_DISTANCE,
 *                    PLANNER_MAX_DURATION, PLANNER_REST and, only with that one,
 *                    PLANNER_REST_AT_HOME
 *       16  f64      cost per distance, 0, or 0.001 to 10^6
 *       24  f64      fixed cost, 0 to 10^9
 *       32  f64      max distance, 0 to 10^12   (zero if not marked)
 *       40  f64      max duration, 0 to 10^12   (zero if not marked)
 *       48  f64      earliest start of the rest, 0 to latest (zero if not
 *                    marked)
 *       56  f64      latest start of the rest, earliest to 10^9 (zero if not
 *                    marked)
 *       64  f64      rest duration, 0 to 10^9   (zero if not marked)
 *
 * Distances, at byte 16 + 48 * R + 72 * V: R * R f64, 0 to 10^9; the leg from
 * row a to row b is number a * R + b.
 *
 * Times, only if the time table byte is 1: R * R f64 more, laid out and ranged
 * alike. Without them the distances serve as times.
 *
 * "Zero" is all zero bits. The sheet ends here: not a byte more.
 *
 * THE PLAN has exactly 16 + 80 * R bytes, little-endian too. Its records are
 * numbered from 0 like the sheet's, so the first round, which is called round 1, has
 * record 0. Unused bytes are zero.
 *
 * Header, at byte 0:
 *
 *   offset  type     field
 *        0  u16      number of rounds
 *        2  u16      first stop set aside, 0 if there is none
 *        4  u16      rows R
 *        6  u16      zero
 *        8  f64      cost of all rounds, summed; -0.0 if there is none, but +0.0
 *                    from plan_rounds on a sheet of one depot and no stop
 *
 * Record k of a round, at byte 16 + 56 * k; R records, those after the last round
 * all zero:
 *
 *   offset  type     field
 *        0  u32      its vehicle's id
 *        4  i32      load
 *        8  u16      first stop; 0 is an empty round, which plan_rounds never
 *                    writes
 *       10  u16      place of the rest: 1 is before the first stop, 2 before the
 *                    second; one more than the stops is at the depot, on return; 0 is
 *                    no rest
 *       12  u32      zero
 *       16  f64      distance, depot to depot
 *       24  f64      duration, from leaving the depot at 0 to the return, or to the
 *                    end of a rest there
 *       32  f64      lateness at soft windows, summed: an arrival after a hard due
 *                    does not count, though a round may have one (see
 *                    PLANNER_NEAREST_NEIGHBOR and limit_rounds)
 *       40  f64      cost of the lateness, in distance
 *       48  f64      start of the rest, 0 without one
 *
 * Row r, at byte 16 + 56 * R + 24 * r:
 *
 *   offset  type     field
 *        0  u16      the next stop of its chain, 0 at the end
 *        2  u16      reason of a stop set aside, see enum planner_reason; 0 of others
 *        4  i32      load after it
 *        8  f64      arrival; a rest at this stop comes after it
 *       16  f64      departure
 *
 * A chain starts at a round's first stop, or at the first stop set aside. A stop
 * set aside has only its next and its reason; a depot's row is all zero.
 *
 * THE BILL of a plan of N rounds has exactly 8 * (N + 1) bytes, little-endian too:
 *
 *   offset  type     field
 *    8 * k  u64      charge of the round with record k, in whole cents, for k below N
 *    8 * N  u64      sum of these charges
 *
 * THE DEAL of a plan of N rounds has exactly N bytes, so none where there is no round:
 *
 *   offset  type     field
 *        k  u8       crew of the round with record k, from 1, for k below N
 *
 * THE TEXT is what import_solomon makes a sheet of: an instance in the form in which
 * Solomon's of 1987 are published. It ends where its length says: a NUL is a byte like
 * any other.
 *
 *     BRICKWORKS
 *
 *     VEHICLE
 *     NUMBER     CAPACITY
 *        3          20
 *
 *     CUSTOMER
 *     CUST NO.   XCOORD.   YCOORD.   DEMAND   READY TIME   DUE DATE   SERVICE TIME
 *
 *         0         0         0         0          0          240           0
 *         1         3         4         8         30           90          15
 *
 *   line      The bytes up to a LF or to the end of the text. One CR right before the
 *             LF belongs to the line's end; any other CR is a byte of its line.
 *   name      The first line, whatever it holds, a digit too.
 *   skipped   Every later line without a digit, wherever it stands.
 *   numbers   Every later line with a digit: whole numbers, spaces and tabs, and nothing
 *             else. Spaces or tabs part the numbers and may surround them. A number is
 *             one or more digits, perhaps with a minus right before them; leading zeros
 *             are allowed, and -0 is 0.
 *   vehicle   The first line of numbers has two: how many vehicles there are, which may
 *             be any number and is not used, and the capacity.
 *   row       Each further one has seven: the row's number, which counts from 0 line by
 *             line, x, y, demand, ready, due and service. Row 0 is the depot and has to
 *             be there; the others are the customers, up to 100.
 */
enum {
    PLANNER_HEADER_BYTES = 16,
    PLANNER_ROW_BYTES = 48,
    PLANNER_VEHICLE_BYTES = 72,
    PLANNER_LEG_BYTES = 8,
    PLANNER_MOST_ROWS = 101,
    PLANNER_MOST_VEHICLES = 16,
    PLANNER_PLAN_HEADER_BYTES = 16,
    PLANNER_PLAN_ROUND_BYTES = 56,
    PLANNER_PLAN_STOP_BYTES = 24,
    PLANNER_PLAN_ROW_BYTES = 80, /* a round's record and a stop's */
    PLANNER_CHARGE_BYTES = 8,
    PLANNER_MOST_RATE = 1000000, /* and the most of the least charge */
    PLANNER_MOST_CREWS = 8
};

/* How rounds are made. Savings, insertion and sweep use a depot's first vehicle for
   all its rounds, as often as it takes; the nearest neighbours give each vehicle of
   the depot one round at most, in order. What no round takes is set aside. Where a
   window is soft, savings, insertion and nn_tw lengthen a round only at less cost than
   a round more, its fixed cost in distance included. */
enum planner_method {
    /* Clarke and Wright 1964: rounds of one stop each, joined end to end, the greatest
       saving first. Capacity is asked where rounds are joined and nowhere else: a stop
       that stays alone may exceed it. */
    PLANNER_SAVINGS = 0,
    /* Solomon 1987: the farthest stop opens a round, and the cheapest insertion of any
       stop left joins it until none fits. */
    PLANNER_INSERTION = 1,
    /* The nearest stop next. On a vehicle without PLANNER_REST it ignores windows and
       waiting: it keeps capacity and both maxima as if no row had a window, so a round
       may arrive after a hard due, with lateness 0, and by its waiting be out longer
       than the maximum duration. On a vehicle with PLANNER_REST the whole round is
       walked, and keeps hard windows, rest and maxima. */
    PLANNER_NEAREST_NEIGHBOR = 2,
    /* The same, keeping hard windows on every vehicle; near is by distance plus
       penalty * lateness. */
    PLANNER_NN_TW = 3,
    /* Gillett and Miller 1974: the stops by their angle from the depot, each into the
       round of the one before it, or into a new one. */
    PLANNER_SWEEP = 4
};

/* Marks of a row. */
enum {
    PLANNER_DEPOT = 1,
    PLANNER_WINDOW = 2,
    PLANNER_PENALTY = 4
};

/* Marks of a vehicle. */
enum {
    PLANNER_MAX_DISTANCE = 1,
    PLANNER_MAX_DURATION = 2,
    PLANNER_REST = 4,
    PLANNER_REST_AT_HOME = 8 /* only with PLANNER_REST */
};

/*
 * Why a stop is set aside. From plan_rounds it is one of 1 to 7, the first that holds of
 * the stop's lone round, depot to stop to depot. The depot is the one tried last: of those
 * that have a vehicle the farthest by its leg to the stop, of equally far ones the higher
 * row. The vehicle is that depot's first. From limit_rounds it is one of 0 to 8.
 *
 * Each is asked as the method asks it: savings pass over PLANNER_ASIDE_CAPACITY, and plain
 * nearest neighbour, on a vehicle without a rest, over PLANNER_ASIDE_WINDOW, the depot's
 * due and waiting.
 */
enum planner_reason {
    /* Not told: limit_rounds copies it from a plan in that is older than version 3.0, or
       made up. */
    PLANNER_ASIDE_UNTOLD = 0,
    /* No depot has a vehicle: the sheet has none. */
    PLANNER_ASIDE_NO_VEHICLE = 1,
    /* The demand is above the capacity. */
    PLANNER_ASIDE_CAPACITY = 2,
    /* Even without a rest the arrival is after the due of a hard window. */
    PLANNER_ASIDE_WINDOW = 3,
    /* The rest has no place, maxima and the depot's due apart: before the stop it would
       start after latest, or end after the due of a hard window; and at the depot it may
       not stand, or would start after latest there too. */
    PLANNER_ASIDE_REST = 4,
    /* The distance is above the maximum. */
    PLANNER_ASIDE_DISTANCE = 5,
    /* The duration is above the maximum, or after the depot's due, with the rest at every
       place that it has. */
    PLANNER_ASIDE_DURATION = 6,
    /* The fleet is used up: nothing of this holds of the first vehicle; or, whatever does,
       another one of that depot could make the lone round. Only by the nearest neighbours,
       since the other methods use a vehicle as often as it takes. */
    PLANNER_ASIDE_FLEET = 7,
    /* limit_rounds dropped the stop's round, and no round that was left took the stop. */
    PLANNER_ASIDE_LIMITED = 8
};

#ifdef __cplusplus
#define PLANNER_CAST(type, value) static_cast<type>(value)
#else
#define PLANNER_CAST(type, value) ((type)(value))
#endif

/* Bytes of a sheet. time_table is 0 or 1. */
#define PLANNER_SHEET_BYTES(rows, vehicles, time_table)                                  \
    (PLANNER_CAST(size_t, PLANNER_HEADER_BYTES)                                          \
     + PLANNER_CAST(size_t, PLANNER_ROW_BYTES) * PLANNER_CAST(size_t, rows)              \
     + PLANNER_CAST(size_t, PLANNER_VEHICLE_BYTES) * PLANNER_CAST(size_t, vehicles)      \
     + PLANNER_CAST(size_t, PLANNER_LEG_BYTES) * PLANNER_CAST(size_t, rows)              \
           * PLANNER_CAST(size_t, rows) * (1u + PLANNER_CAST(size_t, time_table)))

/* Bytes of the sheet of a text with so many rows. */
#define PLANNER_IMPORT_BYTES(rows) PLANNER_SHEET_BYTES(rows, 1, 0)

/* Bytes of the plan of a sheet with so many rows. */
#define PLANNER_PLAN_BYTES(rows)                        \
    (PLANNER_CAST(size_t, PLANNER_PLAN_HEADER_BYTES)    \
     + PLANNER_CAST(size_t, PLANNER_PLAN_ROW_BYTES) * PLANNER_CAST(size_t, rows))

/* Bytes of the bill of a plan with so many rounds. */
#define PLANNER_BILL_BYTES(rounds) \
    (PLANNER_CAST(size_t, PLANNER_CHARGE_BYTES) * (PLANNER_CAST(size_t, rounds) + 1u))

/* Bytes of the deal of a plan with so many rounds. */
#define PLANNER_DEAL_BYTES(rounds) PLANNER_CAST(size_t, rounds)

/*
 * Why a call is turned back. The conditions are tested in this order, rows,
 * matrix entries and vehicles ascending, and the first that holds is the answer.
 * 1 to 8 belong to every function that takes a sheet, 10 to every one that reads a plan;
 * 9 is limit_rounds' alone, 13 bill_rounds' and 14 deal_rounds'. 11 and 12 are
 * import_solomon's, which has an order of its own, 11, 12, 5, 7, 4, and no other refusal;
 * see there.
 */
enum planner_refusal {
    /* No condition holds. */
    PLANNER_ACCEPTED = 0,
    /* Sheet under 16 bytes, time table byte above 1, or a zero byte of the
       header set. */
    PLANNER_BAD_HEADER = 1,
    /* Rows above 101 or vehicles above 16. */
    PLANNER_TOO_MANY = 2,
    /* Method above 4. */
    PLANNER_BAD_METHOD = 3,
    /* Sheet, a plan, a bill or a deal not of its exact length; a buffer shorter than the
       sheet of a text. */
    PLANNER_BAD_LENGTH = 4,
    /* Field or mark of a row out of range, or an unmarked field not zero. */
    PLANNER_BAD_ROW = 5,
    /* Distance or time out of range. */
    PLANNER_BAD_MATRIX = 6,
    /* Field, mark or depot of a vehicle out of range, PLANNER_REST_AT_HOME without
       PLANNER_REST, an unmarked field not zero, or an id twice. */
    PLANNER_BAD_VEHICLE = 7,
    /* No vehicle, for savings, insertion or sweep. */
    PLANNER_NO_VEHICLE = 8,
    /* The sheet has several depots. */
    PLANNER_SEVERAL_DEPOTS = 9,
    /* The plan in has more rounds than the sheet has rows, a round whose id is
       no vehicle's, a link to no stop, a stop that does not stand exactly once
       in all its chains, or a stop set aside with a reason above 8. */
    PLANNER_BAD_PLAN = 10,
    /* Text not of its form. */
    PLANNER_BAD_TEXT = 11,
    /* Text with more than 100 customers after the depot's row. */
    PLANNER_TOO_MANY_CUSTOMERS = 12,
    /* A rate or the least charge above 1,000,000. */
    PLANNER_BAD_RATE = 13,
    /* No crew, or more than 8. */
    PLANNER_BAD_CREWS = 14
};

/*
 * Whether a sheet would be planned: PLANNER_ACCEPTED, or the first refusal of
 * enum planner_refusal that holds. It writes nothing. Stack: PLANNER_STACK.
 *
 *   sheet      the sheet's bytes; with sheet_len 0 nothing is read
 *   sheet_len  how many bytes are lent
 *   plan_len   the length of the buffer that the plan would go to, for refusal
 *              4; PLANNER_PLAN_BYTES(rows) is the only one accepted
 */
uint32_t check_sheet(const uint8_t *sheet, size_t sheet_len, size_t plan_len);

/*
 * Plans a sheet's rounds. PLANNER_ACCEPTED, and the plan fills the buffer; or the
 * first refusal of enum planner_refusal that holds. Stack: PLANNER_STACK_SAVINGS on a
 * sheet of PLANNER_SAVINGS, PLANNER_STACK on others.
 *
 *   sheet, sheet_len  as for check_sheet
 *   plan              where the plan goes
 *   plan_len          how many bytes are lent: PLANNER_PLAN_BYTES(rows) is the only
 *                     length accepted
 *
 * Every stop stands once in the plan, in a round or set aside. One that is set aside has
 * a reason from 1 to 7: PLANNER_ASIDE_NO_VEHICLE where the sheet has no vehicle, and only
 * there, and PLANNER_ASIDE_FLEET never by savings, insertion or sweep. The rest of what
 * is promised is so on sheets where no row has both PLANNER_WINDOW and PLANNER_PENALTY,
 * and where distances, times, windows, service and rests are whole numbers:
 *
 *   - every round keeps its windows, its rest and its maxima, by every method but
 *     PLANNER_NEAREST_NEIGHBOR;
 *   - and its capacity, but for a savings round of a single stop;
 *   - with one depot, insertion sets no stop aside that could make a round alone with
 *     the first vehicle, and closes no round that a later stop would fit in: one on a
 *     later round, or one set aside that is no farther from the depot than some stop
 *     of the round, of equally far ones the higher row.
 */
uint32_t plan_rounds(const uint8_t *sheet, size_t sheet_len, uint8_t *plan, size_t plan_len);

/*
 * Brings a plan within a number of rounds. While there are more, the round of the
 * least load is dropped, of several such the one of fewest stops, of those the
 * first. Its stops go, the cheapest first, to the rounds that stay, each at the
 * cheapest place that keeps its vehicle's capacity, limits and rest and all hard
 * windows; what a place costs is the detour, and with soft windows the lateness
 * too. A stop that fits nowhere is set aside, by PLANNER_ASIDE_LIMITED. A round that
 * takes no stop stays as it was, whatever it breaks.
 *
 * PLANNER_ACCEPTED, and the plan out fills its buffer, with the figures of every
 * round walked anew; or the first refusal of enum planner_refusal that holds. Every
 * stop stands once in the plan out, and there are at most `greatest` rounds. Stops
 * that the plan in sets aside stay so, each with the reason that it has there, 0 too;
 * the chain of those set aside comes out ascending. A round whose rest has no place, nor
 * one at home where that is allowed, has the figures of the walk without it.
 * Stack: PLANNER_STACK.
 *
 *   sheet, sheet_len    as for check_sheet; of any method, with one depot
 *   plan_in             the plan's bytes: a plan of plan_rounds', of this function's,
 *                       or made up. What is read of it: the number of rounds, the ids
 *                       and first stops of so many records, the first stop set aside,
 *                       each stop's next, and the reasons of the stops set aside, which
 *                       are not held to the sheet. No figure is read, and none of the
 *                       other bytes needs to be zero, nor has a stop on a round to have
 *                       the reason 0. Rounds may be empty, over capacity or late, and
 *                       several may have one vehicle
 *   plan_in_len         how many bytes are lent: PLANNER_PLAN_BYTES(rows) is the only
 *                       length accepted
 *   greatest            the most rounds of the plan out, any number; with 0 every
 *                       stop is set aside
 *   plan_out            where the plan goes; a plan can't be limited in place: lend a
 *                       second buffer, and copy
 *   plan_out_len        how many bytes are lent: PLANNER_PLAN_BYTES(rows) is the only
 *                       length accepted
 */
uint32_t limit_rounds(const uint8_t *sheet, size_t sheet_len,
                      const uint8_t *plan_in, size_t plan_in_len, uint32_t greatest,
                      uint8_t *plan_out, size_t plan_out_len);

/*
 * Makes a sheet of a text. An answer above 0 is the sheet's length,
 * PLANNER_IMPORT_BYTES(rows): the sheet stands in the first bytes of the buffer, and the
 * bytes after it stay as they were. A negative answer is a refusal, -n for number n of
 * enum planner_refusal, the first of these that holds:
 *
 *   -11  PLANNER_BAD_TEXT            a line of another form, however late it comes, a row
 *                                    numbered out of turn, or no row
 *   -12  PLANNER_TOO_MANY_CUSTOMERS  a row after row 100
 *    -5  PLANNER_BAD_ROW             a number of a row out of the sheet's ranges, however
 *                                    long it is, or ready after due
 *    -7  PLANNER_BAD_VEHICLE         a capacity out of 0 to 2^31 - 1
 *    -4  PLANNER_BAD_LENGTH          a buffer shorter than the sheet
 *
 * The sheet is one that plan_rounds takes. It has PLANNER_INSERTION and no time table; a
 * row for each row of the text with its numbers as they stand, marked PLANNER_WINDOW, and
 * row 0 PLANNER_DEPOT too, so that rounds are home by its due; one vehicle with id 0, the
 * text's capacity and a cost per distance of 1; and zero in all other fields. The distance
 * of two rows is the root of dx * dx + dy * dy, the f64 nearest to it. Stack:
 * PLANNER_STACK.
 *
 *   text       the text's bytes; with text_len 0 nothing is read
 *   text_len   how many bytes are lent
 *   sheet      where the sheet goes
 *   sheet_len  how many bytes are lent: the sheet's length or more. Every text's sheet
 *              fits in PLANNER_IMPORT_BYTES(PLANNER_MOST_ROWS), 86,544 bytes
 */
int32_t import_solomon(const uint8_t *text, size_t text_len, uint8_t *sheet, size_t sheet_len);

/*
 * Bills a plan by a haulage tariff, round by round, in whole cents. The charge of a round
 * is
 *
 *     distance_rate * begun 1,000s of its distance
 *       + duration_rate * begun 900s of its duration,
 *
 * or `least` where that is more. An empty round costs 0, whatever `least` is. The begun
 * units of a figure are the least whole number that, times 1,000 or 900, is not below it,
 * exactly: 0 has none, 1000.0 is one of 1,000, and the next f64 above it two. Distance and
 * duration are in the sheet's own units, and walked anew from the plan's chains, each
 * round by its vehicle and from that one's depot, as limit_rounds does: a round that
 * breaks a limit is billed like any other. Nothing overflows: a charge is at most
 * 6 * 10^15, so that the sum of 101 fits.
 *
 * A plan of one round, distance 24 and duration 24, at rates 7 and 11 and a least charge
 * of 0: 7 * 1 + 11 * 1 = 18 cents for the round, and 18 for the sum.
 *
 * PLANNER_ACCEPTED, and the bill fills its buffer; or the first refusal of enum
 * planner_refusal that holds. Stack: PLANNER_STACK.
 *
 *   sheet, sheet_len    as for check_sheet; of any method, with any depots
 *   plan, plan_len      as limit_rounds takes a plan in: plan_rounds', limit_rounds', or
 *                       made up, and read as there, reasons too. With several depots a
 *                       link to any of them is a link to no stop
 *   distance_rate       cents for each begun 1,000 of distance, up to PLANNER_MOST_RATE
 *   duration_rate       cents for each begun 900 of duration, up to the same
 *   least               cents that a round with a stop costs at least, up to the same
 *   bill                where the bill goes
 *   bill_len            how many bytes are lent: PLANNER_BILL_BYTES(rounds) is the only
 *                       length accepted, by the plan's own number of rounds. That is read
 *                       before the plan is judged, so a number above the rows is a
 *                       PLANNER_BAD_PLAN only with a bill of the length that it asks for.
 *                       Every bill that is accepted fits in PLANNER_BILL_BYTES(rows)
 */
uint32_t bill_rounds(const uint8_t *sheet, size_t sheet_len, const uint8_t *plan, size_t plan_len,
                     uint32_t distance_rate, uint32_t duration_rate, uint32_t least,
                     uint8_t *bill, size_t bill_len);

/*
 * Deals a plan's rounds to crews. The longest round not yet dealt goes to the crew with
 * the least total so far; of equally long rounds the lower one goes first, and of equal
 * totals the lower crew takes it. A round counts with its duration in whole units of time,
 * rounded up, exactly: 24.0 counts 24, and the next f64 above it 25. By these numbers
 * rounds are compared, and of them totals are summed. Durations are walked anew from the
 * plan's chains, as bill_rounds does: a round that breaks a limit is dealt like any other,
 * and so is an empty one, whose only leg is that from its depot to itself. Nothing
 * overflows: a duration is below 2^53, so that the sum of 101 fits.
 *
 * Three rounds of 20, 20.5 and 30 for two crews: the third goes to crew 1, the second to
 * crew 2, which has 21 of it, and the first to crew 2 too. The totals are 30 and 41.
 *
 * PLANNER_ACCEPTED, and the deal fills its buffer; or the first refusal of enum
 * planner_refusal that holds. Every round has a crew from 1 to `crews`; a crew may be left
 * without a round. What is promised of the totals:
 *
 *   - no crew's total exceeds another's by more than the shortest of its own rounds, or by
 *     more than 0 where it has none;
 *   - the largest total times `crews` is at most the sum of all totals plus the longest
 *     round, or 0 where there is none, times `crews` - 1.
 *
 * Stack: PLANNER_STACK.
 *
 *   sheet, sheet_len    as for check_sheet; of any method, with any depots
 *   plan, plan_len      as for bill_rounds
 *   crews               how many crews there are, 1 to PLANNER_MOST_CREWS, whatever the
 *                       number of rounds
 *   deal                where the deal goes
 *   deal_len            how many bytes are lent: PLANNER_DEAL_BYTES(rounds) is the only
 *                       length accepted, by the plan's own number of rounds, which is read
 *                       as for bill_rounds. Every deal that is accepted fits in
 *                       PLANNER_DEAL_BYTES(rows)
 */
uint32_t deal_rounds(const uint8_t *sheet, size_t sheet_len, const uint8_t *plan, size_t plan_len,
                     uint32_t crews, uint8_t *deal, size_t deal_len);

#ifdef __cplusplus
}
#endif

#endif
