/*
 * round_trip [SHEETS [SEED]]: of drawn and mutated sheets that the planner takes,
 * guchfenor's text makes the same bytes again.
 */
#define _GNU_SOURCE
#include "drawn.h"

#include "../../tools/guchfenor/maker.h"

static struct sheet sheet;
static char text[1 << 20];

static size_t text_of(const struct sheet *s)
{
    FILE *file = tmpfile();
    if (file == NULL)
        end("there is no place for a temporary file");
    write_text(file, s->bytes);
    rewind(file);
    size_t len = fread(text, 1, sizeof text, file);
    fclose(file);
    return len;
}

static void comes_back(const struct sheet *s)
{
    struct made made;
    size_t len = text_of(s);
    make_sheet(&made, text, len);
    if (made.sheet == NULL)
        printf("%.*s\nline %u: %s\n", (int)len, text, made.line, made.error);
    if (made.sheet == NULL || made.len != s->len || memcmp(made.sheet, s->bytes, s->len) != 0)
        end("a text does not make its sheet again");
    free(made.sheet);
}

int main(int count, char **words)
{
    unsigned long sheets = count_of(count, words), back = 0;
    for (unsigned long k = 0; k < sheets; k++) {
        draw_next(&sheet, 0);
        if (check_sheet(sheet.bytes, sheet.len, sheet.plan_len) != PLANNER_ACCEPTED)
            continue;
        comes_back(&sheet);
        back++;
    }
    printf("%lu sheets came back\n", back);
    return back >= sheets / 2 ? 0 : 1;
}
