/*
 * Tries on the compiled library what keravnoth.h says beyond the rules:
 *
 *   check stack TABLE..     the stack that each call takes at most over these
 *                           tables and one that is made here, beside the
 *                           header's figure; LD_BIND_NOW in the environment has
 *                           memcpy and memset bound before the first call
 *   check figures TABLE..   the figures that follow, as the header has them
 *   check claims TABLE      claims lent as records and as text are judged alike: a claim
 *                           of 17 pairs names its row (rows 0 to 2 are kept, and row 2
 *                           can go for rows 0 and 1)
 *   check null TABLE        every call with NULL and count 0 answers as with a
 *                           pointer and count 0
 *   check threads TABLE     the same answers from four threads at once as from one
 *   check factors TABLE     the factors by border are those by zone, and a refusal
 *                           leaves their table whole
 *   check why TABLE         the reasons of every border bear out the extraction and each
 *                           other, and a refusal leaves every lent buffer whole
 *   check told TABLE..      what an answer in text tells is what its text says, of these
 *                           tables, whole and cut short at each of many bytes, with a
 *                           sheet and with marks, and with room that is too short
 *   check words             each refusal has words, no other number has, and the version
 *                           of the library is the header's
 *   check easy TABLE        the calls of keravnoth_easy.h answer as those of keravnoth.h
 *
 * c/build makes it and c/run runs it, on the code for x86-64.
 *
 * Exit code: 0 as the header says, 1 not so, 2 a misuse, or a file that cannot be
 * read.
 */
#define _DEFAULT_SOURCE /* fork, mmap */
#include "keravnoth_easy.h"

#include <ctype.h>
#include <pthread.h>
#include <stdio.h>
#include <stdlib.h>
#include <string.h>
#include <sys/mman.h>
#include <sys/wait.h>
#include <unistd.h>

enum { CALLS = 24, THREADS = 4, TURNS = 8, KIB = 1024, SPARE = 256 };

/* Everything that the calls are lent, once a thread, and `said`, the header that reading
   answered.  No call changes what another is lent: reading gives the same table. */
struct room {
    struct KeravnothHeader table, said;
    size_t n, row, corrected, marked, claimed, listed, sheeted, version;
    int64_t z[KERAVNOTH_ZONES_MOST];
    int64_t t[KERAVNOTH_ZONES_MOST];
    int64_t b[KERAVNOTH_BORDERS_MOST][KERAVNOTH_B_ITEMS];
    int64_t c[KERAVNOTH_ROWS_MOST][KERAVNOTH_C_ITEMS];
    int64_t f[KERAVNOTH_FACTORS_MOST];
    uint64_t p[KERAVNOTH_P_MOST];
    uint64_t marks[KERAVNOTH_BORDERS_MOST];
    int64_t atc[KERAVNOTH_BORDERS_MOST][KERAVNOTH_ATC_ITEMS];
    int64_t left[KERAVNOTH_ROWS_MOST][KERAVNOTH_LEFT_ITEMS];
    int64_t ends[KERAVNOTH_BORDERS_MOST][KERAVNOTH_ENDS_ITEMS];
    int64_t holds[KERAVNOTH_ROWS_MOST][KERAVNOTH_HOLDS_ITEMS];
    int64_t flows[KERAVNOTH_CORNERS_MOST];
    int64_t parts[KERAVNOTH_ROWS_MOST][KERAVNOTH_PARTS_ITEMS];
    int64_t claims[KERAVNOTH_ROWS_MOST][KERAVNOTH_CLAIM_ITEMS];
    uint8_t text[KERAVNOTH_TEXT_MOST + 1];
    uint8_t corrections[KERAVNOTH_TEXT_MOST + 1];
    uint8_t list[KERAVNOTH_TEXT_MOST];
    uint8_t sheet[KERAVNOTH_WRITE_ROWS_MOST];
    uint8_t out[KERAVNOTH_CORNER_TEXT_MOST];
};

static struct room rooms[THREADS];

#define TABLE(r) \
    (r)->table, \
    (r)->z, KERAVNOTH_ZONES_MOST, (r)->t, KERAVNOTH_ZONES_MOST, \
    (r)->b, KERAVNOTH_BORDERS_MOST, \
    (r)->c, KERAVNOTH_ROWS_MOST, (r)->f, KERAVNOTH_FACTORS_MOST

static struct KeravnothHeader header(struct KeravnothRead said)
{
    return (struct KeravnothHeader){
        said.zones, said.borders, said.rows, said.share, said.intraday};
}

static void read_(struct room *r)
{
    r->said = header(keravnoth_read(
        r->text, r->n, r->z, KERAVNOTH_ZONES_MOST, r->t, KERAVNOTH_ZONES_MOST,
        r->b, KERAVNOTH_BORDERS_MOST,
        r->c, KERAVNOTH_ROWS_MOST, r->f, KERAVNOTH_FACTORS_MOST));
}

static void read_corrected(struct room *r)
{
    r->said = header(keravnoth_read_corrected(
        r->text, r->n, r->corrections, r->corrected,
        r->z, KERAVNOTH_ZONES_MOST, r->t, KERAVNOTH_ZONES_MOST,
        r->b, KERAVNOTH_BORDERS_MOST,
        r->c, KERAVNOTH_ROWS_MOST, r->f, KERAVNOTH_FACTORS_MOST));
}

static void write_(struct room *r)
{
    keravnoth_write(TABLE(r), r->out, KERAVNOTH_WRITE_MOST);
}

static void rewrite_corrected(struct room *r)
{
    keravnoth_rewrite_corrected(
        r->text, r->n, r->corrections, r->corrected, r->out, KERAVNOTH_WRITE_MOST);
}

static void extract(struct room *r)
{
    keravnoth_extract(
        TABLE(r), r->p, KERAVNOTH_P_MOST,
        r->atc, KERAVNOTH_BORDERS_MOST, r->left, KERAVNOTH_ROWS_MOST);
}

static void extract_marked(struct room *r)
{
    keravnoth_extract_marked(
        TABLE(r), r->p, KERAVNOTH_P_MOST, r->marks, r->marked,
        r->atc, KERAVNOTH_BORDERS_MOST, r->left, KERAVNOTH_ROWS_MOST);
}

static void result_text(struct room *r)
{
    keravnoth_result_text(TABLE(r), r->out, KERAVNOTH_RESULT_TEXT_MOST);
}

static void result_text_marked(struct room *r)
{
    keravnoth_result_text_marked(TABLE(r), r->marks, r->marked, r->out, KERAVNOTH_RESULT_TEXT_MOST);
}

static void answer(struct room *r)
{
    keravnoth_answer(r->text, r->n, r->out, KERAVNOTH_ANSWER_MOST);
}

static void answer_marked(struct room *r)
{
    keravnoth_answer_marked(r->text, r->n, r->marks, r->marked, r->out, KERAVNOTH_ANSWER_MOST);
}

static void answer_corrected(struct room *r)
{
    keravnoth_answer_corrected(
        r->text, r->n, r->corrections, r->corrected, r->out, KERAVNOTH_ANSWER_MOST);
}

static void corner_flows(struct room *r)
{
    keravnoth_corner_flows(TABLE(r), r->row, r->flows, KERAVNOTH_CORNERS_MOST);
}

static void corner_text(struct room *r)
{
    keravnoth_corner_text(TABLE(r), r->row, r->out, KERAVNOTH_CORNER_TEXT_MOST);
}

static void claims(struct room *r)
{
    keravnoth_claims(
        TABLE(r), r->claims, r->claimed);
}

static void published_text(struct room *r)
{
    keravnoth_published_text(TABLE(r), r->list, r->listed, r->out, KERAVNOTH_PUBLISHED_TEXT_MOST);
}

static void bound(struct room *r)
{
    keravnoth_bound(TABLE(r));
}

static void bound_marked(struct room *r)
{
    keravnoth_bound_marked(TABLE(r), r->marks, r->marked);
}

static void margins(struct room *r)
{
    keravnoth_margins(TABLE(r), r->parts, KERAVNOTH_ROWS_MOST);
}

static void read_rows(struct room *r)
{
    keravnoth_read_rows(
        r->table, r->sheet, r->sheeted, r->c, KERAVNOTH_ROWS_MOST, r->f, KERAVNOTH_FACTORS_MOST);
}

static void write_rows(struct room *r)
{
    keravnoth_write_rows(
        r->table, r->c, KERAVNOTH_ROWS_MOST, r->f, KERAVNOTH_FACTORS_MOST,
        r->out, KERAVNOTH_WRITE_ROWS_MOST);
}

#define REASONS(r) \
    (r)->p, KERAVNOTH_P_MOST, \
    (r)->ends, KERAVNOTH_BORDERS_MOST, (r)->holds, KERAVNOTH_ROWS_MOST

static void why(struct room *r)
{
    keravnoth_why(TABLE(r), 0, REASONS(r));
}

static void why_marked(struct room *r)
{
    keravnoth_why_marked(TABLE(r), r->marks, r->marked, 0, REASONS(r));
}

/* The longest words. */
static void refusal_text(struct room *r)
{
    keravnoth_refusal_text(KERAVNOTH_MALFORMED_CLAIM, r->out, KERAVNOTH_REFUSAL_TEXT_MOST);
}

static void version(struct room *r)
{
    r->version = keravnoth_version();
}

/* The calls of the header, in the order of its figures. */
static const struct {
    const char *name;
    void (*make)(struct room *);
    size_t stack;
} calls[CALLS] = {
    {"read", read_, KERAVNOTH_READ_STACK},
    {"read_corrected", read_corrected, KERAVNOTH_READ_CORRECTED_STACK},
    {"write", write_, KERAVNOTH_WRITE_STACK},
    {"rewrite_corrected", rewrite_corrected, KERAVNOTH_REWRITE_CORRECTED_STACK},
    {"extract", extract, KERAVNOTH_EXTRACT_STACK},
    {"extract_marked", extract_marked, KERAVNOTH_EXTRACT_MARKED_STACK},
    {"result_text", result_text, KERAVNOTH_RESULT_TEXT_STACK},
    {"result_text_marked", result_text_marked, KERAVNOTH_RESULT_TEXT_MARKED_STACK},
    {"answer", answer, KERAVNOTH_ANSWER_STACK},
    {"answer_marked", answer_marked, KERAVNOTH_ANSWER_MARKED_STACK},
    {"answer_corrected", answer_corrected, KERAVNOTH_ANSWER_CORRECTED_STACK},
    {"corner_flows", corner_flows, KERAVNOTH_CORNER_FLOWS_STACK},
    {"corner_text", corner_text, KERAVNOTH_CORNER_TEXT_STACK},
    {"claims", claims, KERAVNOTH_CLAIMS_STACK},
    {"published_text", published_text, KERAVNOTH_PUBLISHED_TEXT_STACK},
    {"bound", bound, KERAVNOTH_BOUND_STACK},
    {"bound_marked", bound_marked, KERAVNOTH_BOUND_MARKED_STACK},
    {"margins", margins, KERAVNOTH_MARGINS_STACK},
    {"read_rows", read_rows, KERAVNOTH_READ_ROWS_STACK},
    {"write_rows", write_rows, KERAVNOTH_WRITE_ROWS_STACK},
    {"why", why, KERAVNOTH_WHY_STACK},
    {"why_marked", why_marked, KERAVNOTH_WHY_MARKED_STACK},
    {"refusal_text", refusal_text, KERAVNOTH_REFUSAL_TEXT_STACK},
    {"version", version, KERAVNOTH_VERSION_STACK},
};

static int load(struct room *r, const char *name)
{
    FILE *file = fopen(name, "rb");
    if (file == NULL) {
        perror(name);
        return 2;
    }
    memset(r, 0, sizeof *r);
    r->n = fread(r->text, 1, sizeof r->text, file);
    int failed = ferror(file);
    fclose(file);
    return failed ? 2 : 0;
}

/* The table that the text has, for the calls on lent tables. */
static void read_table(struct room *r)
{
    read_(r);
    r->table = r->said;
}

/* The table's own C lines are corrections that change nothing, and the longest walk. */
static void correct(struct room *r)
{
    size_t at = 0;
    while (at < r->n && r->text[at] != 'C')
        at++;
    r->corrected = r->n - at;
    memcpy(r->corrections, r->text + at, r->corrected);
}

/* Every second border is marked. */
static void mark(struct room *r)
{
    r->marked = (r->table.borders + 1) / 2;
    for (size_t k = 0; k < r->marked; k++)
        r->marks[k] = 2 * k;
}

/* The multiplier of pair j in claim k: no two claims have the same ones. */
static int64_t times(size_t k, size_t j)
{
    enum { PAIRS = KERAVNOTH_CLAIM_PAIRS_MOST };
    return j == k % PAIRS ? 2 + (int64_t)(k / PAIRS) : 1;
}

/* A claim on every kept row but the first ones, which it cites, as many as it may: as a
   record and as a line. */
static void claim(struct room *r)
{
    size_t kept[KERAVNOTH_ROWS_MOST], count = 0;
    margins(r);
    for (size_t row = 0; row < r->table.rows; row++)
        if (r->parts[row][KERAVNOTH_PARTS_STATE] == KERAVNOTH_STATE_KEPT)
            kept[count++] = row;
    size_t pairs = count > KERAVNOTH_CLAIM_PAIRS_MOST ? KERAVNOTH_CLAIM_PAIRS_MOST : count / 2;
    char *line = (char *)r->list;
    for (size_t k = 0; k < count - pairs; k++) {
        int64_t *pair = r->claims[k] + KERAVNOTH_CLAIM_FIRST_PAIR;
        r->claims[k][KERAVNOTH_CLAIM_ROW] = (int64_t)kept[pairs + k];
        r->claims[k][KERAVNOTH_CLAIM_D] = 1;
        r->claims[k][KERAVNOTH_CLAIM_PAIRS] = (int64_t)pairs;
        line += sprintf(line, "Q\t%zu\t1", kept[pairs + k]);
        for (size_t j = 0; j < pairs; j++) {
            *pair++ = (int64_t)kept[j];
            *pair++ = times(k, j);
            line += sprintf(line, "\t%zu\t%d", kept[j], (int)times(k, j));
        }
        *line++ = '\n';
    }
    r->claimed = count - pairs;
    r->listed = (size_t)(line - (char *)r->list);
}

/* The rows as the planners' sheet. */
static void keep_sheet(struct room *r)
{
    r->sheeted = keravnoth_write_rows(
        r->table, r->c, KERAVNOTH_ROWS_MOST, r->f, KERAVNOTH_FACTORS_MOST,
        r->sheet, KERAVNOTH_WRITE_ROWS_MOST).bytes;
}

/* All that goes with the table of the text. */
static void prepare(struct room *r)
{
    read_table(r);
    correct(r);
    mark(r);
    claim(r);
    keep_sheet(r);
}

/* The text of a table on which as many claims as there can be, each with as many pairs
   as it can have, are borne out: the rows cited have little room and differ in how far
   apart their factors are, every other row is a sum of them. */
static void make_sums(struct room *r)
{
    enum { PAIRS = KERAVNOTH_CLAIM_PAIRS_MOST, APART = 5000, FMAX = 10000000 };
    memset(r, 0, sizeof *r);
    r->table.zones = 2;
    r->table.borders = 1;
    r->table.rows = KERAVNOTH_ROWS_MOST;
    r->table.share = KERAVNOTH_SHARE_UNWRITTEN;
    r->b[0][KERAVNOTH_B_TO] = 1;
    r->b[0][KERAVNOTH_B_SENDING] = KERAVNOTH_NO_HUB;
    r->b[0][KERAVNOTH_B_RECEIVING] = KERAVNOTH_NO_HUB;
    for (size_t row = 0; row < KERAVNOTH_ROWS_MOST; row++) {
        int64_t apart = row < PAIRS ? APART + (int64_t)row : 0;
        for (size_t j = 0; j < PAIRS && row >= PAIRS; j++)
            apart += times(row - PAIRS, j) * (APART + (int64_t)j);
        r->c[row][KERAVNOTH_C_FMAX] = row < PAIRS ? 1 : FMAX;
        r->f[2 * row] = apart - apart / 2;
        r->f[2 * row + 1] = -(apart / 2);
    }
    r->n = keravnoth_write(TABLE(r), r->text, KERAVNOTH_WRITE_MOST).bytes;
}

static int borne_out(struct room *r)
{
    struct KeravnothJudged said = keravnoth_claims(
        TABLE(r), r->claims, r->claimed);
    return said.number == KERAVNOTH_ACCEPTED
        && r->claimed == KERAVNOTH_ROWS_MOST - KERAVNOTH_CLAIM_PAIRS_MOST;
}

/* Paints the stack below this frame, makes the call, and looks how far down the paint
   is gone.  It is not inlined, so that no other frame counts.  What `make` takes itself
   counts, and the call's arguments: some hundred bytes, which another compiler makes
   more or less.  The frame is aligned as the linker aligns what it saves, so that the
   answer is the same wherever the stack begins. */
__attribute__((noinline)) static size_t touched(void (*make)(struct room *), struct room *r)
{
    enum { DEPTH = 1 << 20, OWN = 256 };
    const uint64_t paint = 0xa5a5a5a5a5a5a5a5;
    _Alignas(64) volatile unsigned char here[1];
    uintptr_t top = (uintptr_t)here, at;
    for (at = top - DEPTH; at < top - OWN; at += sizeof paint)
        *(volatile uint64_t *)at = paint;
    make(r);
    for (at = top - DEPTH; at < top - OWN && *(volatile uint64_t *)at == paint; at += sizeof paint)
        ;
    return top - at;
}

/* What a call takes: as the first of its process, where the linker may still have to
   bind memcpy and memset, and where that is done. */
struct taken {
    size_t first, bound;
};

/* What the processes share. */
struct shared {
    struct room room;
    struct taken taken;
};

/* How a process that was started here ended: its exit code, or 2. */
static int ended(pid_t child)
{
    int status;
    if (child < 0 || waitpid(child, &status, 0) != child || !WIFEXITED(status)) {
        fputs("a process was not started, or was stopped\n", stderr);
        return 2;
    }
    return WEXITSTATUS(status);
}

/* Makes the call first and alone in a process of its own, and then once more, where all
   that it reaches is bound. */
static int measure(struct shared *s, void (*make)(struct room *), struct taken *most)
{
    pid_t child = fork();
    if (child == 0) {
        s->taken.first = touched(make, &s->room);
        s->taken.bound = touched(make, &s->room);
        _exit(0);
    }
    if (ended(child) != 0)
        return 2;
    if (s->taken.first > most->first)
        most->first = s->taken.first;
    if (s->taken.bound > most->bound)
        most->bound = s->taken.bound;
    return 0;
}

static void copy(struct room *r)
{
    memcpy(r->out, r->text, r->n);
}

static void fill(struct room *r)
{
    memset(r->out, 0, r->n);
}

/* The most of each call, and of what the linker binds for them. */
struct most {
    struct taken calls[CALLS], copy, fill;
};

static int measure_each(struct shared *s, struct most *most)
{
    for (int call = 0; call < CALLS; call++)
        if (measure(s, calls[call].make, &most->calls[call]) != 0)
            return 2;
    return measure(s, copy, &most->copy) | measure(s, fill, &most->fill);
}

/* Has a process of its own fill the room, for a table or for the one that is made here. */
static int set_up(struct room *r, const char *name)
{
    pid_t child = fork();
    if (child == 0) {
        if (name == NULL)
            make_sums(r);
        else if (load(r, name) != 0)
            _exit(2);
        prepare(r);
        if (name != NULL || borne_out(r))
            _exit(0);
        fputs("the claims that are made here are not borne out\n", stderr);
        _exit(2);
    }
    return ended(child);
}

/* The last byte before the last LF is one that no number has. */
static void spoil(uint8_t *text, size_t n)
{
    if (n > 1)
        text[n - 2] = 'x';
}

/* Over the tables, and over the one that is made here: whole, with what goes with it
   refused, and refused itself, since whoever finds the byte to blame goes deep.  This
   process makes no call, and neither copies nor fills memory: nothing is bound in it,
   so nothing is in those that it starts. */
static int measure_all(int count, char **names, struct most *most)
{
    struct shared *s = mmap(NULL, sizeof *s, PROT_READ | PROT_WRITE, MAP_SHARED | MAP_ANONYMOUS, -1, 0);
    if (s == MAP_FAILED) {
        perror("mmap");
        return 2;
    }
    struct room *r = &s->room;
    for (int i = 0; i < count; i++)
        if (set_up(r, names[i]) != 0 || measure_each(s, most) != 0)
            return 2;
    if (set_up(r, NULL) != 0 || measure_each(s, most) != 0)
        return 2;
    spoil(r->corrections, r->corrected);
    spoil(r->list, r->listed);
    spoil(r->sheet, r->sheeted);
    if (measure_each(s, most) != 0)
        return 2;
    spoil(r->text, r->n);
    return measure_each(s, most);
}

/* The header's rule, under STACK. */
static size_t figure(size_t bytes)
{
    return (bytes + SPARE + KIB - 1) / KIB * KIB;
}

static size_t binding(const struct most *most)
{
    return most->copy.first > most->fill.first ? most->copy.first : most->fill.first;
}

static int lazily(void)
{
    const char *at_once = getenv("LD_BIND_NOW");
    return at_once == NULL || *at_once == '\0';
}

/* Lazily: memcpy and memset were each bound where they were first reached.  At once: no
   call took less when it was made again. */
static int bound_as_wanted(const struct most *most)
{
    int as_wanted = 1;
    if (lazily())
        as_wanted = most->copy.first > most->copy.bound && most->fill.first > most->fill.bound;
    else
        for (int call = 0; call < CALLS; call++)
            as_wanted &= most->calls[call].first == most->calls[call].bound;
    if (!as_wanted)
        fprintf(stderr, "memcpy and memset are not bound %s\n", lazily() ? "lazily" : "at once");
    return as_wanted;
}

/* Says what was taken beside the header's figure; 1 where it is more. */
static int judge(const char *name, size_t bytes, size_t said)
{
    printf("%s: %zu bytes; the header has %zu", name, bytes, said);
    if (bytes > said)
        printf(", which is too little");
    else if (figure(bytes) != said)
        printf(", and its rule gives %zu", figure(bytes));
    printf("\n");
    return bytes > said;
}

static int check_stack(int count, char **names)
{
    static struct most most;
    if (measure_all(count, names, &most) != 0)
        return 2;
    int status = !bound_as_wanted(&most);
    for (int call = 0; call < CALLS; call++) {
        size_t said = calls[call].stack;
        status |= judge(calls[call].name, most.calls[call].bound, said);
        if (most.calls[call].first > said + KERAVNOTH_BINDING_STACK)
            status |= judge("bound lazily it takes", most.calls[call].first, said + KERAVNOTH_BINDING_STACK);
    }
    if (lazily())
        status |= judge("binding", binding(&most), KERAVNOTH_BINDING_STACK);
    return status;
}

static int print_figures(int count, char **names)
{
    static struct most most;
    if (measure_all(count, names, &most) != 0)
        return 2;
    for (int call = 0; call < CALLS; call++) {
        printf("    KERAVNOTH_");
        for (const char *letter = calls[call].name; *letter != '\0'; letter++)
            putchar(toupper(*letter));
        printf("_STACK = %zu,\n", figure(most.calls[call].bound));
    }
    printf("    KERAVNOTH_BINDING_STACK = %zu\n", figure(binding(&most)));
    return !bound_as_wanted(&most);
}

#define SAME(one, other) \
    ((one).number == (other).number && (one).place == (other).place \
        && (one).byte == (other).byte)

/* A claim on row 2 by rows 0 and 1, and one on `row` with so many pairs: both ways. */
static int judged_alike(struct room *r, int64_t row, int pairs, uint32_t number, size_t place)
{
    int64_t list[2][KERAVNOTH_CLAIM_ITEMS] = {{2, 1, 2, 0, 1, 1, 1}, {row, 1, pairs}};
    int n = sprintf((char *)r->text, "Q\t2\t1\t0\t1\t1\t1\nQ\t%d\t1", (int)row);
    for (int pair = 0; pair < pairs; pair++) {
        if (pair < KERAVNOTH_CLAIM_PAIRS_MOST)
            list[1][KERAVNOTH_CLAIM_FIRST_PAIR + 2 * pair + 1] = 1;
        n += sprintf((char *)r->text + n, "\t0\t1");
    }
    n += sprintf((char *)r->text + n, "\n");
    struct KeravnothJudged lent = keravnoth_claims(TABLE(r), list, 2);
    struct KeravnothWritten text = keravnoth_published_text(TABLE(r), r->text, (size_t)n, r->out, sizeof r->out);
    return SAME(lent, text) && lent.number == number && lent.place == place;
}

static int check_claims(const char *name)
{
    struct room *r = &rooms[0];
    if (load(r, name) != 0)
        return 2;
    read_table(r);
    int same = r->table.zones != 0;
    same &= judged_alike(r, 1, 17, KERAVNOTH_MALFORMED_CLAIM, 0);
    same &= judged_alike(r, 1, 3000, KERAVNOTH_MALFORMED_CLAIM, 0);
    same &= judged_alike(r, 9, 17, KERAVNOTH_MALFORMED_CLAIM, 1);
    same &= judged_alike(r, 2, 17, KERAVNOTH_MALFORMED_CLAIM, 1);
    puts(same ? "claims are judged alike, as records and as text" : "claims are judged otherwise as text");
    return same ? 0 : 1;
}

/* Every pointer NULL with count 0, beside one that is not NULL with count 0. */
static int check_null(const char *name)
{
    struct room *r = &rooms[0];
    if (load(r, name) != 0)
        return 2;
    read_table(r);
    int same = r->table.zones != 0;
    same &= SAME(
        keravnoth_read(NULL, 0, NULL, 0, NULL, 0, NULL, 0, NULL, 0, NULL, 0),
        keravnoth_read(r->text, 0, r->z, 0, r->t, 0, r->b, 0, r->c, 0, r->f, 0));
    same &= SAME(
        keravnoth_read(r->text, r->n, NULL, 0, NULL, 0, NULL, 0, NULL, 0, NULL, 0),
        keravnoth_read(r->text, r->n, r->z, 0, r->t, 0, r->b, 0, r->c, 0, r->f, 0));
    same &= SAME(
        keravnoth_read_corrected(r->text, r->n, NULL, 0, NULL, 0, NULL, 0, NULL, 0, NULL, 0, NULL, 0),
        keravnoth_read_corrected(r->text, r->n, r->text, 0, r->z, 0, r->t, 0, r->b, 0, r->c, 0, r->f, 0));
    same &= SAME(
        keravnoth_rewrite_corrected(r->text, r->n, NULL, 0, NULL, 0),
        keravnoth_rewrite_corrected(r->text, r->n, r->text, 0, r->out, 0));
    same &= SAME(
        keravnoth_answer_corrected(r->text, r->n, NULL, 0, r->out, KERAVNOTH_ANSWER_MOST),
        keravnoth_answer_corrected(r->text, r->n, r->text, 0, r->out, KERAVNOTH_ANSWER_MOST));
    same &= SAME(
        keravnoth_answer(NULL, 0, NULL, 0),
        keravnoth_answer(r->text, 0, r->out, 0));
    same &= SAME(
        keravnoth_answer(r->text, r->n, NULL, 0),
        keravnoth_answer(r->text, r->n, r->out, 0));
    same &= SAME(
        keravnoth_answer_marked(r->text, r->n, NULL, 0, r->out, KERAVNOTH_ANSWER_MOST),
        keravnoth_answer_marked(r->text, r->n, r->marks, 0, r->out, KERAVNOTH_ANSWER_MOST));
#define NONE NULL, 0, NULL, 0, NULL, 0, NULL, 0, NULL, 0
#define SOME r->z, 0, r->t, 0, r->b, 0, r->c, 0, r->f, 0
    same &= SAME(
        keravnoth_write(r->table, NONE, NULL, 0),
        keravnoth_write(r->table, SOME, r->out, 0));
    same &= SAME(
        keravnoth_extract(r->table, NONE, NULL, 0, NULL, 0, NULL, 0),
        keravnoth_extract(r->table, SOME, r->p, 0, r->atc, 0, r->left, 0));
    same &= SAME(
        keravnoth_extract(TABLE(r), NULL, 0, NULL, 0, NULL, 0),
        keravnoth_extract(TABLE(r), r->p, 0, r->atc, 0, r->left, 0));
    same &= SAME(
        keravnoth_extract(TABLE(r), r->p, KERAVNOTH_P_MOST, NULL, 0, NULL, 0),
        keravnoth_extract(TABLE(r), r->p, KERAVNOTH_P_MOST, r->atc, 0, r->left, 0));
    same &= SAME(
        keravnoth_result_text(TABLE(r), NULL, 0),
        keravnoth_result_text(TABLE(r), r->out, 0));
    same &= SAME(
        keravnoth_extract_marked(TABLE(r), r->p, KERAVNOTH_P_MOST, NULL, 0, NULL, 0, NULL, 0),
        keravnoth_extract_marked(TABLE(r), r->p, KERAVNOTH_P_MOST, r->marks, 0, r->atc, 0, r->left, 0));
    same &= SAME(
        keravnoth_result_text_marked(TABLE(r), NULL, 0, NULL, 0),
        keravnoth_result_text_marked(TABLE(r), r->marks, 0, r->out, 0));
    same &= SAME(
        keravnoth_corner_flows(r->table, NONE, 0, NULL, 0),
        keravnoth_corner_flows(r->table, SOME, 0, r->flows, 0));
    same &= SAME(
        keravnoth_corner_text(TABLE(r), 0, NULL, 0),
        keravnoth_corner_text(TABLE(r), 0, r->out, 0));
    same &= SAME(
        keravnoth_claims(TABLE(r), NULL, 0),
        keravnoth_claims(TABLE(r), r->claims, 0));
    same &= SAME(
        keravnoth_published_text(TABLE(r), NULL, 0, NULL, 0),
        keravnoth_published_text(TABLE(r), r->text, 0, r->out, 0));
    same &= SAME(
        keravnoth_bound(r->table, NONE),
        keravnoth_bound(r->table, SOME));
    same &= SAME(
        keravnoth_bound_marked(TABLE(r), NULL, 0),
        keravnoth_bound_marked(TABLE(r), r->marks, 0));
    same &= SAME(
        keravnoth_margins(TABLE(r), NULL, 0),
        keravnoth_margins(TABLE(r), r->parts, 0));
    same &= SAME(
        keravnoth_read_rows(r->table, NULL, 0, NULL, 0, NULL, 0),
        keravnoth_read_rows(r->table, r->text, 0, r->c, 0, r->f, 0));
    same &= SAME(
        keravnoth_write_rows(r->table, NULL, 0, NULL, 0, NULL, 0),
        keravnoth_write_rows(r->table, r->c, 0, r->f, 0, r->out, 0));
    same &= SAME(
        keravnoth_why(r->table, NONE, 0, NULL, 0, NULL, 0, NULL, 0),
        keravnoth_why(r->table, SOME, 0, r->p, 0, r->ends, 0, r->holds, 0));
    same &= SAME(
        keravnoth_why(TABLE(r), 0, r->p, KERAVNOTH_P_MOST, NULL, 0, NULL, 0),
        keravnoth_why(TABLE(r), 0, r->p, KERAVNOTH_P_MOST, r->ends, 0, r->holds, 0));
    same &= SAME(
        keravnoth_why_marked(TABLE(r), NULL, 0, 0, r->p, KERAVNOTH_P_MOST, NULL, 0, NULL, 0),
        keravnoth_why_marked(TABLE(r), r->marks, 0, 0, r->p, KERAVNOTH_P_MOST, r->ends, 0, r->holds, 0));
    same &= SAME(
        keravnoth_refusal_text(1, NULL, 0),
        keravnoth_refusal_text(1, r->out, 0));
    puts(same ? "NULL with count 0 answers as count 0" : "NULL with count 0 answers otherwise");
    return same ? 0 : 1;
}

/* The factor that a border has on a row, by the row's zone factors. */
static uint64_t by_zone(const struct room *r, size_t row, size_t border)
{
    const int64_t *f = r->f + row * r->table.zones, *b = r->b[border];
    int64_t p = f[b[KERAVNOTH_B_FROM]] - f[b[KERAVNOTH_B_TO]];
    if (b[KERAVNOTH_B_SENDING] != KERAVNOTH_NO_HUB)
        p += f[b[KERAVNOTH_B_RECEIVING]] - f[b[KERAVNOTH_B_SENDING]];
    return r->left[row][KERAVNOTH_LEFT_STATE] == KERAVNOTH_STATE_KEPT && p > 0 ? (uint64_t)p : 0;
}

static int whole(const struct room *r, size_t from, uint64_t paint)
{
    for (size_t item = from; item < KERAVNOTH_P_MOST; item++)
        if (r->p[item] != paint)
            return 0;
    return 1;
}

/* The table of factors by border: too short, refused for want of room for results,
   and filled. */
static int check_factors(const char *name)
{
    enum { PAINT = 7 };
    struct room *r = &rooms[0];
    if (load(r, name) != 0)
        return 2;
    read_table(r);
    size_t borders = r->table.borders, rows = r->table.rows, needed = rows * borders;
    for (size_t item = 0; item < KERAVNOTH_P_MOST; item++)
        r->p[item] = PAINT;
    struct KeravnothExtracted said = keravnoth_extract(TABLE(r), r->p, needed - 1, r->atc, 0, r->left, 0);
    int same = said.number == KERAVNOTH_BUFFER_TOO_SHORT && said.place == needed && whole(r, 0, PAINT);
    said = keravnoth_extract(TABLE(r), r->p, needed, r->atc, 0, r->left, 0);
    same &= said.number == KERAVNOTH_BUFFER_TOO_SHORT && said.place == borders && whole(r, 0, PAINT);
    extract(r);
    for (size_t row = 0; row < rows; row++)
        for (size_t border = 0; border < borders; border++)
            same &= r->p[row * borders + border] == by_zone(r, row, border);
    same &= whole(r, needed, PAINT);
    puts(same ? "factors by border are those by zone" : "factors by border are not those by zone");
    return same ? 0 : 1;
}

/* What the reasons are written to: painted, and whether it is still so from an item on. */
enum { PAINTED = 0x5a };

static void paint(struct room *r)
{
    memset(r->p, PAINTED, sizeof r->p);
    memset(r->ends, PAINTED, sizeof r->ends);
    memset(r->holds, PAINTED, sizeof r->holds);
}

static int painted(const void *from, const void *end)
{
    for (const unsigned char *byte = from; byte < (const unsigned char *)end; byte++)
        if (*byte != PAINTED)
            return 0;
    return 1;
}

static int painted_from(const struct room *r, size_t item, size_t border, size_t row)
{
    return painted(r->p + item, r->p + KERAVNOTH_P_MOST)
        && painted(r->ends + border, r->ends + KERAVNOTH_BORDERS_MOST)
        && painted(r->holds + row, r->holds + KERAVNOTH_ROWS_MOST);
}

/* A refusal: the fields after byte are 0, and nothing was written. */
static int refused(const struct room *r, struct KeravnothExplained said, uint32_t number, size_t place)
{
    return said.number == number && said.place == place && said.byte == 0
        && said.rounds == 0 && said.last == 0 && said.named == 0 && said.ended == 0
        && painted_from(r, 0, 0, 0);
}

static int rises(int all, size_t border)
{
    return all || border % 2 == 0;
}

/* What a row's equal share of its margin left would still allow a border; what was asked
   of `all` is whether every border may rise, or every second, as `mark` has it. */
static int64_t allows(const struct room *r, int all, size_t row, size_t border)
{
    const uint64_t *p = r->p + row * r->table.borders;
    int64_t n = r->holds[row][KERAVNOTH_HOLDS_N], margin = r->left[row][KERAVNOTH_LEFT_MARGIN];
    if (margin == KERAVNOTH_NO_MARGIN || !rises(all, border) || p[border] == 0 || n == 0)
        return KERAVNOTH_NO_LIMIT;
    return margin / n / (int64_t)p[border];
}

static int64_t sharing(const struct room *r, int all, size_t row)
{
    int64_t n = 0;
    for (size_t border = 0; border < r->table.borders; border++)
        n += rises(all, border) && r->p[row * r->table.borders + border] > 0;
    return n;
}

/* Where a border started, in kW. */
static int64_t started(const struct room *r, size_t border)
{
    if (r->table.intraday == KERAVNOTH_INTRADAY)
        return 0;
    return r->b[border][KERAVNOTH_B_LTA] * KERAVNOTH_KW_PER_MW;
}

/* The reasons of one border beside what the extraction left in p, atc and left. */
static int borne_by_extraction(struct room *r, int all, uint64_t border, uint64_t rounds)
{
    static uint64_t extracted[KERAVNOTH_P_MOST];
    size_t borders = r->table.borders, rows = r->table.rows;
    memcpy(extracted, r->p, sizeof extracted);
    paint(r);
    struct KeravnothExplained said = all
        ? keravnoth_why(TABLE(r), border, REASONS(r))
        : keravnoth_why_marked(TABLE(r), r->marks, r->marked, border, REASONS(r));
    int same = said.number == KERAVNOTH_ACCEPTED && said.place == 0 && said.byte == 0
        && said.rounds == rounds
        && said.last == (uint64_t)r->atc[border][KERAVNOTH_ATC_LAST_ROUND]
        && said.named == r->atc[border][KERAVNOTH_ATC_STOP_ROW];
    same &= memcmp(extracted, r->p, rows * borders * sizeof *r->p) == 0;
    for (size_t other = 0; other < borders; other++) {
        const int64_t *end = r->ends[other];
        same &= end[KERAVNOTH_ENDS_START] == started(r, other);
        same &= end[KERAVNOTH_ENDS_END] / KERAVNOTH_KW_PER_MW == r->atc[other][KERAVNOTH_ATC_MW];
        same &= rises(all, other) || end[KERAVNOTH_ENDS_END] == end[KERAVNOTH_ENDS_START];
    }
    for (size_t row = 0; row < rows; row++) {
        same &= r->holds[row][KERAVNOTH_HOLDS_N] == sharing(r, all, row);
        same &= r->holds[row][KERAVNOTH_HOLDS_MARGIN] == r->left[row][KERAVNOTH_LEFT_MARGIN];
        same &= r->holds[row][KERAVNOTH_HOLDS_ALLOWS] == allows(r, all, row, border);
    }
    if (rises(all, border))
        same &= said.ended >= 0 && said.ended < (int64_t)rows
            && r->holds[said.ended][KERAVNOTH_HOLDS_ALLOWS] == KERAVNOTH_HOLDS
            && r->holds[said.named][KERAVNOTH_HOLDS_ALLOWS] == KERAVNOTH_HOLDS;
    else
        same &= said.last == 0 && said.named == KERAVNOTH_NO_ROW && said.ended == KERAVNOTH_NO_ROW;
    return same && painted_from(r, rows * borders, borders, rows);
}

/* Refusals that are why's own, room that is one item short, and which comes first. */
static int refusals_of_why(struct room *r)
{
    size_t borders = r->table.borders, rows = r->table.rows, cells = rows * borders;
    paint(r);
    return refused(r, keravnoth_why(TABLE(r), borders, REASONS(r)), KERAVNOTH_NO_SUCH_BORDER, borders)
        && refused(r, keravnoth_why(TABLE(r), UINT64_MAX, REASONS(r)), KERAVNOTH_NO_SUCH_BORDER, borders)
        && refused(r, keravnoth_why_marked(TABLE(r), r->marks, r->marked, borders, REASONS(r)), KERAVNOTH_NO_SUCH_BORDER, borders)
        && refused(r, keravnoth_why_marked(TABLE(r), r->marks, 0, borders, REASONS(r)), KERAVNOTH_BAD_MARK, 0)
        && refused(r, keravnoth_why(TABLE(r), borders, r->p, cells - 1, r->ends, 0, r->holds, 0), KERAVNOTH_BUFFER_TOO_SHORT, cells)
        && refused(r, keravnoth_why(TABLE(r), borders, r->p, cells, r->ends, 0, r->holds, 0), KERAVNOTH_NO_SUCH_BORDER, borders)
        && refused(r, keravnoth_why(TABLE(r), 0, r->p, cells, r->ends, borders - 1, r->holds, 0), KERAVNOTH_BUFFER_TOO_SHORT, borders)
        && refused(r, keravnoth_why(TABLE(r), 0, r->p, cells, r->ends, borders, r->holds, rows - 1), KERAVNOTH_BUFFER_TOO_SHORT, rows);
}

static int check_why(const char *name)
{
    struct room *r = &rooms[0];
    if (load(r, name) != 0)
        return 2;
    read_table(r);
    mark(r);
    int same = r->table.zones != 0 && refusals_of_why(r);
    for (int all = 0; all < 2 && same; all++) {
        struct KeravnothExtracted said = keravnoth_extract_marked(
            TABLE(r), r->p, KERAVNOTH_P_MOST, r->marks, r->marked,
            r->atc, KERAVNOTH_BORDERS_MOST, r->left, KERAVNOTH_ROWS_MOST);
        if (all)
            said = keravnoth_extract(
                TABLE(r), r->p, KERAVNOTH_P_MOST,
                r->atc, KERAVNOTH_BORDERS_MOST, r->left, KERAVNOTH_ROWS_MOST);
        same = said.number == KERAVNOTH_ACCEPTED;
        for (uint64_t border = 0; border < r->table.borders && same; border++)
            same = borne_by_extraction(r, all, border, said.rounds);
    }
    puts(same ? "reasons bear out the extraction" : "reasons do not bear out the extraction");
    return same ? 0 : 1;
}

/* What the first bytes of a text tell: three numbers of an E line, or none. */
static int tells(const uint8_t *text, struct KeravnothAnswered said)
{
    char line[64];
    if (said.number != KERAVNOTH_ACCEPTED || said.bytes == 0 || text[0] != 'E')
        return said.told_number == 0 && said.told_place == 0 && said.told_byte == 0;
    int n = sprintf(line, "E\t%u\t%zu\t%zu\n", (unsigned)said.told_number, said.told_place, said.told_byte);
    return said.told_number != 0 && said.bytes == (size_t)n && memcmp(text, line, said.bytes) == 0;
}

/* The answers to the first n bytes of a table: whole, with every second border marked, with a
   border that is none, with the table's own rows as a sheet, with a spoiled sheet, and with too
   little room, which refuses the call and tells nothing. */
static int told_of(struct room *r, size_t n, int *results, int *lines)
{
    uint64_t none = KERAVNOTH_BORDERS_MOST;
    struct KeravnothAnswered said = keravnoth_answer(r->text, n, r->out, KERAVNOTH_ANSWER_MOST);
    *results += said.told_number == 0;
    *lines += said.told_number != 0;
    int same = said.number == KERAVNOTH_ACCEPTED && tells(r->out, said);
    size_t bytes = said.bytes;
    said = keravnoth_answer_marked(r->text, n, r->marks, r->marked, r->out, KERAVNOTH_ANSWER_MOST);
    same &= said.number == KERAVNOTH_ACCEPTED && tells(r->out, said);
    said = keravnoth_answer_marked(r->text, n, &none, 1, r->out, KERAVNOTH_ANSWER_MOST);
    same &= said.number == KERAVNOTH_ACCEPTED && said.told_number != 0 && tells(r->out, said);
    said = keravnoth_answer_corrected(r->text, n, r->corrections, r->corrected, r->out, KERAVNOTH_ANSWER_MOST);
    same &= said.number == KERAVNOTH_ACCEPTED && tells(r->out, said);
    said = keravnoth_answer_corrected(r->text, n, r->corrections, r->corrected / 2, r->out, KERAVNOTH_ANSWER_MOST);
    same &= said.number == KERAVNOTH_ACCEPTED && tells(r->out, said);
    said = keravnoth_answer(r->text, n, r->out, bytes - 1);
    return same && said.number == KERAVNOTH_BUFFER_TOO_SHORT && said.place == bytes && said.bytes == 0
        && tells(r->out, said);
}

static int check_told(int count, char **names)
{
    struct room *r = &rooms[0];
    int same = 1, results = 0, lines = 0;
    for (int i = 0; i < count; i++) {
        if (load(r, names[i]) != 0)
            return 2;
        read_table(r);
        mark(r);
        correct(r);
        same &= told_of(r, r->n, &results, &lines);
        for (size_t n = 0; n < r->n; n += 1 + r->n / 50)
            same &= told_of(r, n, &results, &lines);
    }
    printf("%d results and %d E lines: %s\n", results, lines, same ? "each is told" : "not each is told");
    return same && results > 0 && lines > 0 ? 0 : 1;
}

/* Words for each number that a refusal has, and others for none; 0 is no refusal. */
static int check_words(void)
{
    uint8_t words[KERAVNOTH_REFUSAL_TEXT_MOST], none[KERAVNOTH_REFUSAL_TEXT_MOST];
    struct KeravnothWritten other = keravnoth_refusal_text(UINT64_MAX, none, sizeof none);
    int same = other.number == KERAVNOTH_ACCEPTED && keravnoth_version() == KERAVNOTH_VERSION;
    for (uint64_t number = 0; number < 100; number++) {
        struct KeravnothWritten said = keravnoth_refusal_text(number, words, sizeof words);
        int known = said.bytes != other.bytes || memcmp(words, none, said.bytes) != 0;
        same &= said.number == KERAVNOTH_ACCEPTED && said.bytes > 0 && known == (number <= KERAVNOTH_NO_SUCH_BORDER);
        if (known)
            printf("%d\t%.*s\n", (int)number, (int)said.bytes, (const char *)words);
        said = keravnoth_refusal_text(number, words, said.bytes - 1);
        same &= said.number == KERAVNOTH_BUFFER_TOO_SHORT && said.bytes == 0;
    }
    return same ? 0 : 1;
}

_Static_assert(sizeof(struct KeravnothHour) == KERAVNOTH_HOUR_BYTES, "the memory of an hour");

static int check_easy(const char *name)
{
    static struct KeravnothHour hour;
    struct room *r = &rooms[0];
    if (load(r, name) != 0)
        return 2;
    read_table(r);
    mark(r);
    correct(r);
    int same = keravnoth_hour_read(&hour, r->text, r->n, NULL, 0).number == KERAVNOTH_ACCEPTED;
    same &= keravnoth_hour_read(&hour, r->text, r->n, r->corrections, r->corrected).number == KERAVNOTH_ACCEPTED;
    same &= memcmp(&hour.table, &r->table, sizeof r->table) == 0 && memcmp(hour.f, r->f, sizeof r->f) == 0;
    for (int all = 0; all < 2; all++) {
        const uint64_t *marks = all ? NULL : r->marks;
        if (all)
            extract(r);
        else
            extract_marked(r);
        struct KeravnothExtracted work = keravnoth_hour_extract(&hour, marks, r->marked);
        same &= work.number == KERAVNOTH_ACCEPTED && memcmp(hour.p, r->p, sizeof r->p) == 0
            && memcmp(hour.atc, r->atc, sizeof r->atc) == 0 && memcmp(hour.left, r->left, sizeof r->left) == 0;
        same &= keravnoth_hour_bound(&hour, marks, r->marked).sharp >= work.rounds;
        struct KeravnothWritten text = keravnoth_hour_result(&hour, marks, r->marked);
        same &= text.number == KERAVNOTH_ACCEPTED && hour.out[0] == 'A' && hour.out[text.bytes - 1] == '\n';
        same &= keravnoth_hour_why(&hour, 0, marks, r->marked).rounds == work.rounds;
        same &= hour.ends[0][KERAVNOTH_ENDS_END] / KERAVNOTH_KW_PER_MW == hour.atc[0][KERAVNOTH_ATC_MW];
    }
    margins(r);
    same &= keravnoth_hour_margins(&hour).number == KERAVNOTH_ACCEPTED && memcmp(hour.parts, r->parts, sizeof r->parts) == 0;
    corner_flows(r);
    same &= keravnoth_hour_corners(&hour, 0).number == KERAVNOTH_ACCEPTED && memcmp(hour.flows, r->flows, sizeof r->flows) == 0;
    same &= strcmp(keravnoth_hour_words(&hour, KERAVNOTH_GIVEN_TWICE, 63, 0),
        "border 63 has the same from, to and hubs as an earlier border: leave one of the two out") == 0;
    same &= strncmp(keravnoth_hour_words(&hour, KERAVNOTH_OUT_OF_RANGE, 10, 100), "line 10, byte 100, has a value", 30) == 0;
    same &= strlen(keravnoth_hour_words(&hour, KERAVNOTH_MALFORMED_CLAIM, UINT64_MAX, UINT64_MAX)) < sizeof hour.words;
    /* An hour that was refused has no table. */
    same &= keravnoth_hour_read(&hour, r->text, 0, NULL, 0).number == KERAVNOTH_WRONG_FORM;
    struct KeravnothExtracted work = keravnoth_hour_extract(&hour, NULL, 0);
    same &= work.number == KERAVNOTH_OUT_OF_RANGE && work.place == 1;
    puts(same ? "an hour in one struct answers as the calls do" : "an hour in one struct answers otherwise");
    return same ? 0 : 1;
}

static void *turns(void *lent)
{
    struct room *r = lent;
    prepare(r);
    for (int turn = 0; turn < TURNS; turn++)
        for (int call = 0; call < CALLS; call++)
            calls[call].make(r);
    /* Other texts come last: the answer once more, for the comparison. */
    answer(r);
    return NULL;
}

static int check_threads(const char *name)
{
    pthread_t threads[THREADS];
    static struct room alone;
    if (load(&alone, name) != 0)
        return 2;
    turns(&alone);
    for (int i = 0; i < THREADS; i++)
        if (load(&rooms[i], name) != 0)
            return 2;
    for (int i = 0; i < THREADS; i++)
        if (pthread_create(&threads[i], NULL, turns, &rooms[i]) != 0)
            return 2;
    int same = 1;
    for (int i = 0; i < THREADS; i++) {
        pthread_join(threads[i], NULL);
        same &= memcmp(&rooms[i], &alone, sizeof alone) == 0;
    }
    puts(same ? "four threads at once answer as one" : "four threads at once answer otherwise");
    return same ? 0 : 1;
}

int main(int argc, char **argv)
{
    if (argc > 2 && strcmp(argv[1], "stack") == 0)
        return check_stack(argc - 2, argv + 2);
    if (argc > 2 && strcmp(argv[1], "figures") == 0)
        return print_figures(argc - 2, argv + 2);
    if (argc == 3 && strcmp(argv[1], "claims") == 0)
        return check_claims(argv[2]);
    if (argc == 3 && strcmp(argv[1], "null") == 0)
        return check_null(argv[2]);
    if (argc == 3 && strcmp(argv[1], "threads") == 0)
        return check_threads(argv[2]);
    if (argc == 3 && strcmp(argv[1], "factors") == 0)
        return check_factors(argv[2]);
    if (argc == 3 && strcmp(argv[1], "why") == 0)
        return check_why(argv[2]);
    if (argc > 2 && strcmp(argv[1], "told") == 0)
        return check_told(argc - 2, argv + 2);
    if (argc == 2 && strcmp(argv[1], "words") == 0)
        return check_words();
    if (argc == 3 && strcmp(argv[1], "easy") == 0)
        return check_easy(argv[2]);
    fprintf(stderr, "usage: %s stack TABLE.. | figures TABLE.. | claims TABLE | null TABLE | threads TABLE | factors TABLE | why TABLE | told TABLE.. | words | easy TABLE\n", argv[0]);
    return 2;
}
