/*
 * guchfenor COMMAND ..: plans sheets, shows, draws and bills plans, deals them to crews,
 * explains refusals, and makes sheets from text, and imports them. See guchfenor.h;
 * outside the proof.
 */
#include <string.h>

#include "guchfenor.h"

static const struct command *const commands[] = {&plan_command, &limit_command,   &show_command, &draw_command, &bill_command,
                                                 &deal_command, &explain_command, &make_command, &text_command, &import_command};
enum { COMMANDS = sizeof commands / sizeof *commands };

static const struct command *find_command(const char *name)
{
    for (int k = 0; k < COMMANDS; k++)
        if (strcmp(commands[k]->name, name) == 0)
            return commands[k];
    return NULL;
}

static int overview(FILE *out)
{
    fputs("usage: guchfenor COMMAND ..\n\n", out);
    for (int k = 0; k < COMMANDS; k++)
        fprintf(out, "  %-37s %s\n", commands[k]->usage, commands[k]->summary);
    fputs("  help [COMMAND]                        this, or what COMMAND --help says\n"
          "  --version                             the version\n\n"
          "A file named - is standard input, or standard output after -o.\n"
          "Exit status: 0 done; 1 the planner refused, or what was read is not right;\n"
          "2 bad usage, or a file that cannot be read or written.\n\n"
          "This program is plain C outside the proof. What is proved is the library whose\n"
          "plan_rounds, limit_rounds, bill_rounds, deal_rounds, import_solomon and check_sheet\n"
          "it calls.\n",
          out);
    return DONE;
}

static int help_of(const struct command *command)
{
    printf("usage: guchfenor %s\n\n%s\n"
           "Exit status: 0 done; 1 the planner refused, or what was read is not right;\n"
           "2 bad usage, or a file that cannot be read or written.\n"
           "This program is outside the proof.\n",
           command->usage, command->help);
    return DONE;
}

static int bad_use(const struct command *command, const char *what, const char *word)
{
    tell("%s%s", what, word);
    fprintf(stderr, "usage: guchfenor %s (guchfenor %s --help says more)\n", command->usage, command->name);
    return UNUSABLE;
}

static int is_help(const char *word)
{
    return strcmp(word, "--help") == 0 || strcmp(word, "-h") == 0;
}

/* Where the word after an option goes, if the command takes that. */
static const char **option_of(const struct command *command, struct call *call, const char *word)
{
    if (command->options & TAKES_OUT && strcmp(word, "-o") == 0)
        return &call->out;
    return command->options & TAKES_CREWS && strcmp(word, "--crews") == 0 ? &call->crews : NULL;
}

static int run_with(const struct command *command, int count, char **words)
{
    struct call call = {{NULL}, 0, NULL, NULL};
    int options = 1;
    for (int i = 0; i < count; i++) {
        const char *word = words[i], **option = options ? option_of(command, &call, word) : NULL;
        if (options && is_help(word))
            return help_of(command);
        if (options && strcmp(word, "--") == 0)
            options = 0;
        else if (option != NULL) {
            if (++i == count)
                return bad_use(command, word, option == &call.out ? " needs a file" : " needs a number");
            *option = words[i];
        } else if (options && word[0] == '-' && word[1] != '\0')
            return bad_use(command, "no such option: ", word);
        else if (call.words == command->most)
            return bad_use(command, "a word too many: ", word);
        else
            call.word[call.words++] = word;
    }
    if (call.words < command->least)
        return bad_use(command, "a word is missing", "");
    return command->run(&call);
}

static int no_command(const char *name)
{
    tell("no such command: %s", name);
    fputs("usage: guchfenor COMMAND .. (guchfenor help lists the commands)\n", stderr);
    return UNUSABLE;
}

static int help(int count, char **words)
{
    const struct command *command = count > 0 ? find_command(words[0]) : NULL;
    if (command != NULL)
        return help_of(command);
    return count > 0 ? no_command(words[0]) : overview(stdout);
}

static int run_named(int count, char **words)
{
    const struct command *command = find_command(words[0]);
    if (command != NULL)
        return run_with(command, count - 1, words + 1);
    if (strcmp(words[0], "help") == 0)
        return help(count - 1, words + 1);
    if (is_help(words[0]))
        return overview(stdout);
    if (strcmp(words[0], "--version") == 0)
        return puts("guchfenor " PLANNER_VERSION) == EOF ? UNUSABLE : DONE;
    return no_command(words[0]);
}

int main(int count, char **words)
{
    if (count < 2) {
        overview(stderr);
        return UNUSABLE;
    }
    int status = run_named(count - 1, words + 1);
    if (fflush(stdout) != 0 && status == DONE) {
        tell("standard output: cannot be written");
        status = UNUSABLE;
    }
    return status;
}
