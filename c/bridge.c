/*
 * Makes calls of keravnoth.h for another process: requests on standard input,
 * answers on standard output, until the input ends.  It lets a comparer that is
 * built for one machine try a library that is built for another (the library is
 * for x86-64, and may run under an emulator).
 *
 * A word has 64 bits, the least byte first, as numbers lie in memory on x86-64.
 *
 * A request: its words (struct request), then the lent buffers.  The words are the
 * call, its header (zones, borders, rows, share, intraday) and its row or border
 * (each 0 where the call takes none), and the counts of items of z, t, b, c, f, p,
 * marks, atc, left, flows, claims, parts, ends, allowed, text, sheet and out (0 where
 * the call does not take that buffer).  The buffers that the call takes follow in this
 * order, each with BEFORE items before the lent part and AFTER items after it.
 *
 * An answer: the fields of the call's struct, a word each, then the same buffers
 * as the call left them, with what lies around them: whoever asks compares it.
 * The buffers of a request lie in one piece of memory, one behind the other, as
 * they came, so a call that writes beyond its buffer is seen there too.
 *
 * Exit code: 0 the input ended after a whole request, 2 a malformed request, or
 * the answer cannot be written.
 */
#include "keravnoth.h"

#include <stdio.h>
#include <stdlib.h>

_Static_assert(sizeof(size_t) == sizeof(uint64_t), "a size_t is a word");

enum { BEFORE = 2, AFTER = 3 };

enum {
    READ = 1, WRITE, EXTRACT, RESULT_TEXT, ANSWER, CORNER_FLOWS, CORNER_TEXT,
    EXTRACT_MARKED, RESULT_TEXT_MARKED, ANSWER_MARKED,
    READ_CORRECTED, ANSWER_CORRECTED, REWRITE_CORRECTED,
    JUDGE_CLAIMS, PUBLISHED_TEXT, READ_ROWS, WRITE_ROWS,
    BOUND, BOUND_MARKED, MARGINS, WHY, WHY_MARKED, CALLS
};

/* Buffers of numbers stand before buffers of bytes, so each is aligned. */
enum { Z, T, B, C, F, P, MARKS, ATC, LEFT, FLOWS, CLAIMS, PARTS, ENDS, ALLOWED, TEXT, SHEET, OUT, BUFFERS };

typedef int64_t border_record[KERAVNOTH_B_ITEMS];
typedef int64_t row_record[KERAVNOTH_C_ITEMS];
typedef int64_t atc_record[KERAVNOTH_ATC_ITEMS];
typedef int64_t left_record[KERAVNOTH_LEFT_ITEMS];
typedef int64_t claim_record[KERAVNOTH_CLAIM_ITEMS];
typedef int64_t parts_record[KERAVNOTH_PARTS_ITEMS];
typedef int64_t ends_record[KERAVNOTH_ENDS_ITEMS];
typedef int64_t allowed_record[KERAVNOTH_HOLDS_ITEMS];

static const size_t item_bytes[BUFFERS] = {
    [Z] = sizeof(int64_t),
    [T] = sizeof(int64_t),
    [B] = sizeof(border_record),
    [C] = sizeof(row_record),
    [F] = sizeof(int64_t),
    [P] = sizeof(uint64_t),
    [MARKS] = sizeof(uint64_t),
    [ATC] = sizeof(atc_record),
    [LEFT] = sizeof(left_record),
    [FLOWS] = sizeof(int64_t),
    [CLAIMS] = sizeof(claim_record),
    [PARTS] = sizeof(parts_record),
    [ENDS] = sizeof(ends_record),
    [ALLOWED] = sizeof(allowed_record),
    [TEXT] = 1,
    [SHEET] = 1,
    [OUT] = 1,
};

/* 1: the call takes the buffer. */
static const unsigned char takes[CALLS][BUFFERS] = {
    [READ] = {[Z] = 1, [T] = 1, [B] = 1, [C] = 1, [F] = 1, [TEXT] = 1},
    [WRITE] = {[Z] = 1, [T] = 1, [B] = 1, [C] = 1, [F] = 1, [OUT] = 1},
    [EXTRACT] = {[Z] = 1, [T] = 1, [B] = 1, [C] = 1, [F] = 1, [P] = 1, [ATC] = 1, [LEFT] = 1},
    [RESULT_TEXT] = {[Z] = 1, [T] = 1, [B] = 1, [C] = 1, [F] = 1, [OUT] = 1},
    [ANSWER] = {[TEXT] = 1, [OUT] = 1},
    [CORNER_FLOWS] = {[Z] = 1, [T] = 1, [B] = 1, [C] = 1, [F] = 1, [FLOWS] = 1},
    [CORNER_TEXT] = {[Z] = 1, [T] = 1, [B] = 1, [C] = 1, [F] = 1, [OUT] = 1},
    [EXTRACT_MARKED] = {[Z] = 1, [T] = 1, [B] = 1, [C] = 1, [F] = 1, [P] = 1, [MARKS] = 1, [ATC] = 1, [LEFT] = 1},
    [RESULT_TEXT_MARKED] = {[Z] = 1, [T] = 1, [B] = 1, [C] = 1, [F] = 1, [MARKS] = 1, [OUT] = 1},
    [ANSWER_MARKED] = {[MARKS] = 1, [TEXT] = 1, [OUT] = 1},
    [READ_CORRECTED] = {[Z] = 1, [T] = 1, [B] = 1, [C] = 1, [F] = 1, [TEXT] = 1, [SHEET] = 1},
    [ANSWER_CORRECTED] = {[TEXT] = 1, [SHEET] = 1, [OUT] = 1},
    [REWRITE_CORRECTED] = {[TEXT] = 1, [SHEET] = 1, [OUT] = 1},
    [JUDGE_CLAIMS] = {[Z] = 1, [T] = 1, [B] = 1, [C] = 1, [F] = 1, [CLAIMS] = 1},
    [PUBLISHED_TEXT] = {[Z] = 1, [T] = 1, [B] = 1, [C] = 1, [F] = 1, [SHEET] = 1, [OUT] = 1},
    [READ_ROWS] = {[C] = 1, [F] = 1, [SHEET] = 1},
    [WRITE_ROWS] = {[C] = 1, [F] = 1, [OUT] = 1},
    [BOUND] = {[Z] = 1, [T] = 1, [B] = 1, [C] = 1, [F] = 1},
    [BOUND_MARKED] = {[Z] = 1, [T] = 1, [B] = 1, [C] = 1, [F] = 1, [MARKS] = 1},
    [MARGINS] = {[Z] = 1, [T] = 1, [B] = 1, [C] = 1, [F] = 1, [PARTS] = 1},
    [WHY] = {[Z] = 1, [T] = 1, [B] = 1, [C] = 1, [F] = 1, [P] = 1, [ENDS] = 1, [ALLOWED] = 1},
    [WHY_MARKED] = {[Z] = 1, [T] = 1, [B] = 1, [C] = 1, [F] = 1, [P] = 1, [MARKS] = 1, [ENDS] = 1, [ALLOWED] = 1},
};

/* The most bytes that the buffers of a request may have, guards included. */
#define MOST_BYTES ((size_t)1 << 20)

struct request {
    uint64_t call;
    uint64_t zones, borders, rows;
    int64_t share;
    uint64_t intraday;
    uint64_t row;
    uint64_t count[BUFFERS];
};

_Static_assert(sizeof(struct request) == (7 + BUFFERS) * sizeof(uint64_t), "words and nothing between");

static int malformed(const char *what)
{
    fprintf(stderr, "bridge: malformed request: %s\n", what);
    return 2;
}

/* The header of a request as every call on lent tables takes it. */
#define HEADER(r) ((struct KeravnothHeader){(r)->zones, (r)->borders, (r)->rows, (r)->share, (r)->intraday})

/* Makes the call; how many words its answer has.  at: the lent parts. */
static size_t make(const struct request *r, unsigned char *const *at, uint64_t *answer)
{
    int64_t *z = (int64_t *)at[Z];
    int64_t *t = (int64_t *)at[T];
    border_record *b = (border_record *)at[B];
    row_record *c = (row_record *)at[C];
    int64_t *f = (int64_t *)at[F];
    const uint64_t *marks = (const uint64_t *)at[MARKS];
    size_t nz = r->count[Z], nt = r->count[T], nb = r->count[B], nc = r->count[C], nf = r->count[F];

    if (r->call == READ || r->call == READ_CORRECTED) {
        struct KeravnothRead said;
        if (r->call == READ)
            said = keravnoth_read(
                at[TEXT], r->count[TEXT], z, nz, t, nt, b, nb, c, nc, f, nf);
        else
            said = keravnoth_read_corrected(
                at[TEXT], r->count[TEXT], at[SHEET], r->count[SHEET], z, nz, t, nt, b, nb, c, nc, f, nf);
        answer[0] = said.number;
        answer[1] = said.place;
        answer[2] = said.byte;
        answer[3] = said.zones;
        answer[4] = said.borders;
        answer[5] = said.rows;
        answer[6] = said.share;
        answer[7] = said.intraday;
        return 8;
    }
    if (r->call == EXTRACT || r->call == EXTRACT_MARKED) {
        uint64_t *p = (uint64_t *)at[P];
        atc_record *atc = (atc_record *)at[ATC];
        left_record *left = (left_record *)at[LEFT];
        size_t np = r->count[P], natc = r->count[ATC], nleft = r->count[LEFT];
        struct KeravnothExtracted said;
        if (r->call == EXTRACT)
            said = keravnoth_extract(
                HEADER(r),
                z, nz, t, nt, b, nb, c, nc, f, nf,
                p, np, atc, natc, left, nleft);
        else
            said = keravnoth_extract_marked(
                HEADER(r),
                z, nz, t, nt, b, nb, c, nc, f, nf,
                p, np, marks, r->count[MARKS], atc, natc, left, nleft);
        answer[0] = said.number;
        answer[1] = said.place;
        answer[2] = said.byte;
        answer[3] = said.rounds;
        return 4;
    }
    if (r->call == BOUND || r->call == BOUND_MARKED) {
        struct KeravnothBounded said;
        if (r->call == BOUND)
            said = keravnoth_bound(
                HEADER(r),
                z, nz, t, nt, b, nb, c, nc, f, nf);
        else
            said = keravnoth_bound_marked(
                HEADER(r),
                z, nz, t, nt, b, nb, c, nc, f, nf,
                marks, r->count[MARKS]);
        answer[0] = said.number;
        answer[1] = said.place;
        answer[2] = said.byte;
        answer[3] = said.sharers;
        answer[4] = said.bits;
        answer[5] = said.rounds;
        answer[6] = said.sharp;
        return 7;
    }
    if (r->call == MARGINS) {
        struct KeravnothJudged said = keravnoth_margins(
            HEADER(r),
            z, nz, t, nt, b, nb, c, nc, f, nf,
            (parts_record *)at[PARTS], r->count[PARTS]);
        answer[0] = said.number;
        answer[1] = said.place;
        answer[2] = said.byte;
        return 3;
    }
    if (r->call == WHY || r->call == WHY_MARKED) {
        uint64_t *p = (uint64_t *)at[P];
        ends_record *ends = (ends_record *)at[ENDS];
        allowed_record *rows = (allowed_record *)at[ALLOWED];
        size_t np = r->count[P], nends = r->count[ENDS], nrows = r->count[ALLOWED];
        struct KeravnothExplained said;
        if (r->call == WHY)
            said = keravnoth_why(
                HEADER(r),
                z, nz, t, nt, b, nb, c, nc, f, nf,
                r->row, p, np, ends, nends, rows, nrows);
        else
            said = keravnoth_why_marked(
                HEADER(r),
                z, nz, t, nt, b, nb, c, nc, f, nf,
                marks, r->count[MARKS], r->row, p, np, ends, nends, rows, nrows);
        answer[0] = said.number;
        answer[1] = said.place;
        answer[2] = said.byte;
        answer[3] = said.rounds;
        answer[4] = said.last;
        answer[5] = said.named;
        answer[6] = said.ended;
        return 7;
    }
    if (r->call == CORNER_FLOWS) {
        struct KeravnothFlows said = keravnoth_corner_flows(
            HEADER(r),
            z, nz, t, nt, b, nb, c, nc, f, nf,
            r->row, (int64_t *)at[FLOWS], r->count[FLOWS]);
        answer[0] = said.number;
        answer[1] = said.place;
        answer[2] = said.byte;
        answer[3] = said.corners;
        return 4;
    }
    if (r->call == JUDGE_CLAIMS || r->call == READ_ROWS) {
        struct KeravnothJudged said;
        if (r->call == JUDGE_CLAIMS)
            said = keravnoth_claims(
                HEADER(r),
                z, nz, t, nt, b, nb, c, nc, f, nf,
                (claim_record *)at[CLAIMS], r->count[CLAIMS]);
        else
            said = keravnoth_read_rows(
                HEADER(r), at[SHEET], r->count[SHEET], c, nc, f, nf);
        answer[0] = said.number;
        answer[1] = said.place;
        answer[2] = said.byte;
        return 3;
    }
    if (r->call == ANSWER || r->call == ANSWER_MARKED || r->call == ANSWER_CORRECTED) {
        struct KeravnothAnswered said;
        if (r->call == ANSWER)
            said = keravnoth_answer(at[TEXT], r->count[TEXT], at[OUT], r->count[OUT]);
        else if (r->call == ANSWER_MARKED)
            said = keravnoth_answer_marked(
                at[TEXT], r->count[TEXT], marks, r->count[MARKS], at[OUT], r->count[OUT]);
        else
            said = keravnoth_answer_corrected(
                at[TEXT], r->count[TEXT], at[SHEET], r->count[SHEET], at[OUT], r->count[OUT]);
        answer[0] = said.number;
        answer[1] = said.place;
        answer[2] = said.byte;
        answer[3] = said.bytes;
        answer[4] = said.told_number;
        answer[5] = said.told_place;
        answer[6] = said.told_byte;
        return 7;
    }
    struct KeravnothWritten said;
    if (r->call == WRITE)
        said = keravnoth_write(
            HEADER(r),
            z, nz, t, nt, b, nb, c, nc, f, nf,
            at[OUT], r->count[OUT]);
    else if (r->call == RESULT_TEXT)
        said = keravnoth_result_text(
            HEADER(r),
            z, nz, t, nt, b, nb, c, nc, f, nf,
            at[OUT], r->count[OUT]);
    else if (r->call == CORNER_TEXT)
        said = keravnoth_corner_text(
            HEADER(r),
            z, nz, t, nt, b, nb, c, nc, f, nf,
            r->row, at[OUT], r->count[OUT]);
    else if (r->call == RESULT_TEXT_MARKED)
        said = keravnoth_result_text_marked(
            HEADER(r),
            z, nz, t, nt, b, nb, c, nc, f, nf,
            marks, r->count[MARKS], at[OUT], r->count[OUT]);
    else if (r->call == REWRITE_CORRECTED)
        said = keravnoth_rewrite_corrected(
            at[TEXT], r->count[TEXT], at[SHEET], r->count[SHEET], at[OUT], r->count[OUT]);
    else if (r->call == PUBLISHED_TEXT)
        said = keravnoth_published_text(
            HEADER(r),
            z, nz, t, nt, b, nb, c, nc, f, nf,
            at[SHEET], r->count[SHEET], at[OUT], r->count[OUT]);
    else
        said = keravnoth_write_rows(
            HEADER(r), c, nc, f, nf, at[OUT], r->count[OUT]);
    answer[0] = said.number;
    answer[1] = said.place;
    answer[2] = said.byte;
    answer[3] = said.bytes;
    return 4;
}

int main(void)
{
    /* An answer of usual size is read and written at once. */
    static char in[1 << 16], out[1 << 18];
    setvbuf(stdin, in, _IOFBF, sizeof in);
    setvbuf(stdout, out, _IOFBF, sizeof out);

    unsigned char *memory = malloc(MOST_BYTES);
    if (memory == NULL) {
        perror("bridge");
        return 2;
    }
    for (;;) {
        struct request r;
        size_t got = fread(&r, 1, sizeof r, stdin);
        if (got == 0 && feof(stdin))
            return 0;
        if (got != sizeof r)
            return malformed("its words are cut short");
        if (r.call == 0 || r.call >= CALLS)
            return malformed("no such call");

        unsigned char *at[BUFFERS];
        size_t bytes = 0;
        for (int buffer = 0; buffer < BUFFERS; buffer++) {
            at[buffer] = NULL;
            if (!takes[r.call][buffer]) {
                if (r.count[buffer] != 0)
                    return malformed("a buffer that the call does not take");
                continue;
            }
            if (r.count[buffer] > MOST_BYTES)
                return malformed("a count is too large");
            size_t items = BEFORE + r.count[buffer] + AFTER;
            if (items > (MOST_BYTES - bytes) / item_bytes[buffer])
                return malformed("its buffers are too large");
            at[buffer] = memory + bytes + BEFORE * item_bytes[buffer];
            bytes += items * item_bytes[buffer];
        }
        if (fread(memory, 1, bytes, stdin) != bytes)
            return malformed("its buffers are cut short");

        uint64_t answer[8];
        size_t words = make(&r, at, answer);
        if (fwrite(answer, sizeof answer[0], words, stdout) != words
            || fwrite(memory, 1, bytes, stdout) != bytes || fflush(stdout) != 0) {
            perror("bridge: writing");
            return 2;
        }
    }
}
