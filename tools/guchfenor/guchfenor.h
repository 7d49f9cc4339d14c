/*
 * guchfenor: the planner's command for people.
 *
 * This program is plain C outside the proof. What is proved is the library that it
 * calls; nothing that this program reads, prints or draws is.
 */
#ifndef GUCHFENOR_H
#define GUCHFENOR_H

#include <stddef.h>
#include <stdint.h>
#include <stdio.h>

#include "planner.h"
#include "planner_fields.h"

/* Exit statuses. */
enum {
    DONE = 0,
    WRONG = 1,   /* the planner refused, or what was read is not right */
    UNUSABLE = 2 /* bad usage, or a file that cannot be read or written */
};

enum { MOST_WORDS = 5 };

/* What a command was given: its words, where -o sends what it makes (NULL: standard output), and what follows --crews (NULL:
   it is not there). */
struct call {
    const char *word[MOST_WORDS];
    int words;
    const char *out, *crews;
};

enum {
    TAKES_OUT = 1,  /* -o */
    TAKES_CREWS = 2 /* --crews */
};

struct command {
    const char *name, *usage, *summary;
    int least, most; /* how many words it takes */
    int options;     /* those that it takes */
    int (*run)(const struct call *call);
    const char *help;
};

extern const struct command plan_command, limit_command, show_command, draw_command, bill_command, deal_command,
    explain_command, make_command, text_command, import_command;

#ifdef __GNUC__
#define LIKE_PRINTF(words, first) __attribute__((format(printf, words, first)))
#else
#define LIKE_PRINTF(words, first)
#endif

/* A line on standard error, after the program's name. */
void tell(const char *format, ...) LIKE_PRINTF(1, 2);

/* Says that the planner refused the sheet, or the sheet with a plan (NULL: none). WRONG. */
int turned_back(uint32_t answer, const char *sheet, const char *plan);

/* Says loudly that this program's own reading of a file gives another refusal than the planner. UNUSABLE. */
int differs(const char *name, unsigned here, uint32_t planner);

/* "s" unless there is one. */
static inline const char *plural(size_t count)
{
    return count == 1 ? "" : "s";
}

#endif
