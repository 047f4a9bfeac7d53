/*
 * Reads an hour's table from the file given (or from standard input) and prints
 * its capacities, one line `A`, border, ATC in MW for each border, parted by
 * tabs.  With the word `corners` before the file it prints, for each row, which
 * use of the long-term rights loads it most: the line of its corner sheet with
 * the largest flow.  A refusal goes to standard error.
 *
 *   ./build
 *   c/build c/hour.c target/lib/libkeravnoth.a hour
 *   c/run ./hour hours/worked.tsv
 *
 * on every machine; on x86-64, after ./install PREFIX, also
 *
 *   cc -std=c11 c/hour.c -IPREFIX/include PREFIX/lib/libkeravnoth.a -o hour
 *   ./hour hours/worked.tsv
 *
 * Exit code: 0 all printed, 1 the table is refused, 2 the file cannot be read or
 * the lines cannot be printed.
 */
#include "keravnoth_easy.h"

#include <inttypes.h>
#include <stdio.h>
#include <string.h>

/* One byte more than is ever taken, so that a longer file is seen as such. */
static uint8_t text[KERAVNOTH_TEXT_MOST + 1];
static struct KeravnothHour hour;

static int refused(uint32_t number, size_t place, size_t byte)
{
    fprintf(
        stderr, "E\t%" PRIu32 "\t%zu\t%zu\t(%s)\n",
        number, place, byte, keravnoth_hour_words(&hour, number, place, byte));
    return 1;
}

static int print_capacities(void)
{
    struct KeravnothExtracted work = keravnoth_hour_extract(&hour, NULL, 0);
    if (work.number != KERAVNOTH_ACCEPTED)
        return refused(work.number, work.place, work.byte);
    for (size_t border = 0; border < hour.table.borders; border++)
        printf("A\t%zu\t%" PRId64 "\n", border, hour.atc[border][KERAVNOTH_ATC_MW]);
    return 0;
}

static int print_heaviest_corners(void)
{
    for (size_t row = 0; row < hour.table.rows; row++) {
        struct KeravnothFlows sheet = keravnoth_hour_corners(&hour, row);
        if (sheet.number != KERAVNOTH_ACCEPTED)
            return refused(sheet.number, sheet.place, sheet.byte);
        size_t most = 0;
        for (size_t corner = 1; corner < sheet.corners; corner++)
            if (hour.flows[corner] > hour.flows[most])
                most = corner;
        printf("K\t%zu\t%zu\t%" PRId64 "\n", row, most, hour.flows[most]);
    }
    return 0;
}

int main(int argc, char **argv)
{
    int corners = argc > 1 && strcmp(argv[1], "corners") == 0;
    const char *name = argc > 1 + corners ? argv[1 + corners] : NULL;
    if (argc > 2 + corners) {
        fprintf(stderr, "usage: %s [corners] [table]\n", argv[0]);
        return 2;
    }
    FILE *file = name != NULL ? fopen(name, "rb") : stdin;
    if (file == NULL) {
        perror(name);
        return 2;
    }
    size_t n = fread(text, 1, sizeof text, file);
    if (ferror(file)) {
        perror("reading");
        return 2;
    }
    if (file != stdin)
        fclose(file);

    struct KeravnothJudged table = keravnoth_hour_read(&hour, text, n, NULL, 0);
    if (table.number != KERAVNOTH_ACCEPTED)
        return refused(table.number, table.place, table.byte);

    int status = corners ? print_heaviest_corners() : print_capacities();
    if (fflush(stdout) != 0) {
        perror("writing");
        return 2;
    }
    return status;
}
