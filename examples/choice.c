/* choice FILE: which task runs after the log in FILE, which is laid out as the listing's input: one byte n, n table records, then events. */
#include "brumerola.h"

#include <errno.h>
#include <stdio.h>
#include <string.h>

static const char usage[] = "usage: choice FILE\n"
                            "Says which task runs after the log in FILE: one byte n, n table records of 16 bytes, then events of 20 bytes.\n"
                            "It ends with 0 where the library answered, a refusal too, and with 2 where standard error says what is wrong.\n";

/* The longest table that a byte n can announce and the longest log, and one byte more: so a log that is too long is lent as one. */
static uint8_t bytes[1 + 16 * 255 + BRUMEROLA_LOG_MOST + 1];

/* What is wrong, where and what to do, in one line; it answers the exit status. */
static int stops(const char *where, const char *what, const char *to_do)
{
    fprintf(stderr, "choice: %s: %s; %s\n", *where == '\0' ? "an empty name" : where, what, to_do);
    return 2;
}

/* The header's refusals in words, by their numbers. */
static const char *meaning(uint32_t refusal)
{
    static const char *const words[] = {
        "nothing is wrong",
        "the table is not 1 to 16 records of 16 bytes",
        "a table record does not begin with 54 4B",
        "a task breaks 1 <= C <= D <= T <= 1,000,000",
        "a task breaks m < K <= 64, or has m = 0 and K over 1",
        "the log ends within a record of 20 bytes",
        "an event record does not begin with 45 56",
        "an event's kind is not 0, 1 or 2",
        "a tick has a task or a job, or a release has a job",
        "the last event is before the clock, or past 1,000,000,000,000",
        "the last event is of a task that the table does not have",
        "the last event releases its task less than T after its last release",
        "the last event completes a job that is not open",
    };
    return refusal < sizeof words / sizeof *words ? words[refusal] : "brumerola.h of this library has its meaning";
}

static void tell(uint32_t code)
{
    if (code < BRUMEROLA_NONE)
        printf("task %u runs\n", (unsigned)code);
    else if (code == BRUMEROLA_NONE)
        printf("no job is open\n");
    else if (code == BRUMEROLA_TOO_LONG)
        printf("the log is too long: %u bytes are the most\n", BRUMEROLA_LOG_MOST);
    else
        printf("refused %u: %s\n", (unsigned)(code - BRUMEROLA_REFUSED), meaning(code - BRUMEROLA_REFUSED));
}

/* The exit status. A full disk may be told at closing only. */
static int close_output(void)
{
    if (!ferror(stdout) && fclose(stdout) == 0)
        return 0;
    return stops("standard output", strerror(errno), "the answer is lost, so give it room and ask again");
}

/* Fills `bytes` from the file's front; false where it said what is wrong. */
static int read_file(const char *name, size_t *size)
{
    FILE *file = fopen(name, "rb");
    int whole = 0;
    if (file != NULL) {
        *size = fread(bytes, 1, sizeof bytes, file);
        whole = !ferror(file);
    }
    if (!whole)
        stops(name, strerror(errno), "give a file that can be read");
    if (file != NULL)
        fclose(file);
    return whole;
}

static int ask(const char *name)
{
    size_t size = 0, table;
    if (!read_file(name, &size))
        return 2;
    if (size == 0)
        return stops(name, "the file is empty", "make it again with ./brumerola bytes");
    table = 16 * (size_t)bytes[0];
    if (size - 1 < table) {
        char what[100];
        snprintf(what, sizeof what, "the table is not whole: of n = %u records of 16 bytes, %u bytes are there", (unsigned)bytes[0], (unsigned)(size - 1));
        return stops(name, what, "make it again with ./brumerola bytes");
    }
    tell(brumerola_choice(bytes + 1, table, bytes + 1 + table, size - 1 - table));
    return close_output();
}

int main(int count, char **words)
{
    if (count != 2)
        return stops(count < 2 ? "no file" : "more than one file", "one is needed", "run choice FILE, or choice --help");
    if (strcmp(words[1], "--help") != 0)
        return ask(words[1]);
    fputs(usage, stdout);
    return close_output();
}
