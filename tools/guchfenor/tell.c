#include <stdarg.h>

#include "guchfenor.h"

void tell(const char *format, ...)
{
    va_list given;
    va_start(given, format);
    fputs("guchfenor: ", stderr);
    vfprintf(stderr, format, given);
    fputc('\n', stderr);
    va_end(given);
}

int turned_back(uint32_t answer, const char *sheet, const char *plan)
{
    fprintf(stderr, "refused %lu: %s\n", (unsigned long)answer, planner_refusal_text(answer));
    tell("nothing was written; `guchfenor explain %s%s%s` says what is wrong, and where", sheet, plan != NULL ? " " : "",
         plan != NULL ? plan : "");
    return WRONG;
}

int differs(const char *name, unsigned here, uint32_t planner)
{
    tell("%s: A FAULT OF THIS PROGRAM OR OF THE PLANNER: the program reads refusal %u (%s),", name, here,
         planner_refusal_text(here));
    tell("and the planner answers %lu (%s). Please report it with the file.", (unsigned long)planner,
         planner_refusal_text(planner));
    return UNUSABLE;
}
