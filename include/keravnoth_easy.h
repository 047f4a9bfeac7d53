/*
 * keravnoth_easy.h: one hour in one struct, over the calls of keravnoth.h.
 *
 *   static struct KeravnothHour hour;
 *   struct KeravnothJudged table = keravnoth_hour_read(&hour, text, n, NULL, 0);
 *   struct KeravnothExtracted work = keravnoth_hour_extract(&hour, NULL, 0);
 *   if (table.number == KERAVNOTH_ACCEPTED && work.number == KERAVNOTH_ACCEPTED)
 *       .. hour.atc[border][KERAVNOTH_ATC_MW] ..
 *
 * Everything here is static inline: nothing is added to the library, and nothing is
 * allocated.  A KeravnothHour has room for the largest table, so that no call on it is
 * refused for want of room (8).  It is too large for most stacks: make it static, or a
 * part of what you allocate.  Several hours may be worked on in several threads at once.
 *
 * marks, n: the borders that may rise, as in keravnoth.h; NULL stands for every border.
 * Refusals, units and fields are those of keravnoth.h.  A refused call writes to nothing
 * but what its line below names.
 */
#ifndef KERAVNOTH_EASY_H
#define KERAVNOTH_EASY_H

#include "keravnoth.h"

/* The bytes of an hour: all the memory that its calls need beside their stack. */
enum { KERAVNOTH_HOUR_BYTES = 229240 };

/* Words for a refusal, its place and byte written out, and a NUL. */
enum { KERAVNOTH_HOUR_WORDS = KERAVNOTH_REFUSAL_TEXT_MOST + 20 + 8 + 20 + 1 };

struct KeravnothHour {
    /* what keravnoth_hour_read read; all 0 where it refused, and then every other call is
       refused (3, line 1) */
    struct KeravnothHeader table;
    int64_t z[KERAVNOTH_ZONES_MOST];
    int64_t t[KERAVNOTH_ZONES_MOST];
    int64_t b[KERAVNOTH_BORDERS_MOST][KERAVNOTH_B_ITEMS];
    int64_t c[KERAVNOTH_ROWS_MOST][KERAVNOTH_C_ITEMS];
    int64_t f[KERAVNOTH_FACTORS_MOST];
    /* of keravnoth_hour_extract, and p of keravnoth_hour_why too */
    uint64_t p[KERAVNOTH_P_MOST];
    int64_t atc[KERAVNOTH_BORDERS_MOST][KERAVNOTH_ATC_ITEMS];
    int64_t left[KERAVNOTH_ROWS_MOST][KERAVNOTH_LEFT_ITEMS];
    /* of keravnoth_hour_why */
    int64_t ends[KERAVNOTH_BORDERS_MOST][KERAVNOTH_ENDS_ITEMS];
    int64_t holds[KERAVNOTH_ROWS_MOST][KERAVNOTH_HOLDS_ITEMS];
    /* of keravnoth_hour_margins */
    int64_t parts[KERAVNOTH_ROWS_MOST][KERAVNOTH_PARTS_ITEMS];
    /* of keravnoth_hour_corners */
    int64_t flows[KERAVNOTH_CORNERS_MOST];
    /* of keravnoth_hour_result: bytes without a NUL */
    uint8_t out[KERAVNOTH_RESULT_TEXT_MOST];
    /* of keravnoth_hour_words */
    char words[KERAVNOTH_HOUR_WORDS];
};

#define KERAVNOTH_HOUR_TABLE(hour) \
    (hour)->table, \
    (hour)->z, KERAVNOTH_ZONES_MOST, \
    (hour)->t, KERAVNOTH_ZONES_MOST, \
    (hour)->b, KERAVNOTH_BORDERS_MOST, \
    (hour)->c, KERAVNOTH_ROWS_MOST, \
    (hour)->f, KERAVNOTH_FACTORS_MOST

/* Reads a table's text into the hour, as a correction sheet corrects it where sheet is not
   NULL.  Sets hour->table always. */
static inline struct KeravnothJudged keravnoth_hour_read(
    struct KeravnothHour *hour,
    const uint8_t *text, size_t n,
    const uint8_t *sheet, size_t m)
{
    struct KeravnothRead said;
    struct KeravnothJudged judged;
    if (sheet == NULL)
        said = keravnoth_read(
            text, n,
            hour->z, KERAVNOTH_ZONES_MOST, hour->t, KERAVNOTH_ZONES_MOST,
            hour->b, KERAVNOTH_BORDERS_MOST, hour->c, KERAVNOTH_ROWS_MOST,
            hour->f, KERAVNOTH_FACTORS_MOST);
    else
        said = keravnoth_read_corrected(
            text, n, sheet, m,
            hour->z, KERAVNOTH_ZONES_MOST, hour->t, KERAVNOTH_ZONES_MOST,
            hour->b, KERAVNOTH_BORDERS_MOST, hour->c, KERAVNOTH_ROWS_MOST,
            hour->f, KERAVNOTH_FACTORS_MOST);
    hour->table.zones = said.zones;
    hour->table.borders = said.borders;
    hour->table.rows = said.rows;
    hour->table.share = said.share;
    hour->table.intraday = said.intraday;
    judged.number = said.number;
    judged.place = said.place;
    judged.byte = said.byte;
    return judged;
}

/* Capacities and margins: hour->atc, hour->left, hour->p. */
static inline struct KeravnothExtracted keravnoth_hour_extract(
    struct KeravnothHour *hour, const uint64_t *marks, size_t n)
{
    if (marks == NULL)
        return keravnoth_extract(
            KERAVNOTH_HOUR_TABLE(hour), hour->p, KERAVNOTH_P_MOST,
            hour->atc, KERAVNOTH_BORDERS_MOST, hour->left, KERAVNOTH_ROWS_MOST);
    return keravnoth_extract_marked(
        KERAVNOTH_HOUR_TABLE(hour), hour->p, KERAVNOTH_P_MOST, marks, n,
        hour->atc, KERAVNOTH_BORDERS_MOST, hour->left, KERAVNOTH_ROWS_MOST);
}

/* The extraction as text, in hour->out. */
static inline struct KeravnothWritten keravnoth_hour_result(
    struct KeravnothHour *hour, const uint64_t *marks, size_t n)
{
    if (marks == NULL)
        return keravnoth_result_text(
            KERAVNOTH_HOUR_TABLE(hour), hour->out, KERAVNOTH_RESULT_TEXT_MOST);
    return keravnoth_result_text_marked(
        KERAVNOTH_HOUR_TABLE(hour), marks, n, hour->out, KERAVNOTH_RESULT_TEXT_MOST);
}

/* Why the extraction gave a border no more: hour->ends, hour->holds, hour->p. */
static inline struct KeravnothExplained keravnoth_hour_why(
    struct KeravnothHour *hour, uint64_t border, const uint64_t *marks, size_t n)
{
    if (marks == NULL)
        return keravnoth_why(
            KERAVNOTH_HOUR_TABLE(hour), border, hour->p, KERAVNOTH_P_MOST,
            hour->ends, KERAVNOTH_BORDERS_MOST, hour->holds, KERAVNOTH_ROWS_MOST);
    return keravnoth_why_marked(
        KERAVNOTH_HOUR_TABLE(hour), marks, n, border, hour->p, KERAVNOTH_P_MOST,
        hour->ends, KERAVNOTH_BORDERS_MOST, hour->holds, KERAVNOTH_ROWS_MOST);
}

/* How many rounds the extraction can take at most. */
static inline struct KeravnothBounded keravnoth_hour_bound(
    struct KeravnothHour *hour, const uint64_t *marks, size_t n)
{
    if (marks == NULL)
        return keravnoth_bound(KERAVNOTH_HOUR_TABLE(hour));
    return keravnoth_bound_marked(KERAVNOTH_HOUR_TABLE(hour), marks, n);
}

/* What the margin of each row is made of: hour->parts. */
static inline struct KeravnothJudged keravnoth_hour_margins(struct KeravnothHour *hour)
{
    return keravnoth_margins(KERAVNOTH_HOUR_TABLE(hour), hour->parts, KERAVNOTH_ROWS_MOST);
}

/* The flows of all corners of one row: hour->flows. */
static inline struct KeravnothFlows keravnoth_hour_corners(struct KeravnothHour *hour, size_t row)
{
    return keravnoth_corner_flows(
        KERAVNOTH_HOUR_TABLE(hour), row, hour->flows, KERAVNOTH_CORNERS_MOST);
}

#undef KERAVNOTH_HOUR_TABLE

static inline char *keravnoth_hour_number(char *out, uint64_t number)
{
    uint64_t tens = 1;
    while (number / tens >= 10)
        tens *= 10;
    for (; tens > 0; tens /= 10)
        *out++ = (char)('0' + number / tens % 10);
    return out;
}

/* What a refusal means, with its place and byte: hour->words, which ends in a NUL. */
static inline const char *keravnoth_hour_words(
    struct KeravnothHour *hour, uint64_t number, uint64_t place, uint64_t byte)
{
    uint8_t line[KERAVNOTH_REFUSAL_TEXT_MOST];
    const char *before = ", byte ";
    struct KeravnothWritten said = keravnoth_refusal_text(number, line, sizeof line);
    char *out = hour->words;
    size_t at;
    for (at = 0; at < said.bytes; at++) {
        if (line[at] != '#') {
            *out++ = (char)line[at];
            continue;
        }
        out = keravnoth_hour_number(out, place);
        if (byte > 0) {
            while (*before != '\0')
                *out++ = *before++;
            out = keravnoth_hour_number(out, byte);
            *out++ = ',';
        }
    }
    *out = '\0';
    return hour->words;
}

#endif
