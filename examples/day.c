/* The capacities of a day, an hour to a line: its file and the ATC of each border in MW, or why there are none. */
#include "keravnoth_easy.h"
#include <inttypes.h>
#include <stdio.h>

static uint8_t text[KERAVNOTH_TEXT_MOST + 1]; /* a byte more, so that a longer file is seen as such */
static struct KeravnothHour hour;

static int refused(const char *name, uint32_t number, size_t place, size_t byte)
{
    printf("%s\trefused: %s\n", name, keravnoth_hour_words(&hour, number, place, byte));
    return 1;
}

static int one_hour(const char *name)
{
    FILE *file = fopen(name, "rb");
    size_t n = file == NULL ? 0 : fread(text, 1, sizeof text, file);
    if (file == NULL || ferror(file) || fclose(file) != 0)
        return perror(name), 2;
    struct KeravnothJudged table = keravnoth_hour_read(&hour, text, n, NULL, 0);
    if (table.number != KERAVNOTH_ACCEPTED)
        return refused(name, table.number, table.place, table.byte);
    struct KeravnothExtracted work = keravnoth_hour_extract(&hour, NULL, 0);
    if (work.number != KERAVNOTH_ACCEPTED)
        return refused(name, work.number, work.place, work.byte);
    printf("%s", name);
    for (size_t border = 0; border < hour.table.borders; border++)
        printf("\t%" PRId64, hour.atc[border][KERAVNOTH_ATC_MW]);
    return putchar('\n') == EOF ? 2 : 0;
}

int main(int argc, char **argv)
{
    int worst = 0, status;
    for (int hours = 1; hours < argc; hours++, worst = status > worst ? status : worst)
        status = one_hour(argv[hours]);
    return fflush(stdout) != 0 ? 2 : worst;
}
