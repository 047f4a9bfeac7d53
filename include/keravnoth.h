/*
 * keravnoth: fallback electricity capacities (ATCs) from one hour's table.
 * The rules are those of document 01 (docs/RULES.md has them whole).
 * keravnoth_easy.h, beside this file, holds every buffer in one struct.
 *
 * UNITS
 *   kW               net positions, Fmax, FRM, Fref, F0all, CVA, IVA
 *   MW               LTA and ATC
 *   hundred-thousandths   transfer factors (PTDF)
 *   grains           RAM, margins and flows; a kW is 100,000 grains (0.01 W each)
 *   ten-thousandths  R
 *
 * RECORDS (no record holds its index; ranges include both ends; the fields have
 * names below, KERAVNOTH_B_FROM and so on)
 *   header   zones 2..16, borders 1..64, rows 1..200, share: what "-" in R is
 *            worth, 0..10000, or -1 where the H line does not write it (then
 *            "-" is worth 7000), intraday: 1 where the table has t, 0 where it has
 *            none
 *   z        one int64_t a zone: reference net position, -100000000..100000000
 *   t        one int64_t a zone where the header says that t is there, else none is
 *            looked at: allocated net position, as z; they sum to 0.  The table is
 *            then of the intraday profile: margins start at RAM less the sum of
 *            factor * t, taken as 0 where negative, and every border at 0 kW
 *   b        from zone, to zone (both exist, not equal), LTA 0..10000, and the
 *            hubs of a cable that is modelled by two: sending hub, receiving hub
 *            (both are zones that exist, not equal; each may be from or to), or
 *            -1 and -1 where the border has none
 *   c        Fmax 1..10000000, FRM 0..Fmax, Fref -20000000..20000000, F0all the
 *            same, R 0..10000 or -1 where "-" is written (it is worth what the
 *            header says), CVA 0..10000000, IVA 0..10000000
 *   f        one int64_t a row and zone, -100000..100000; row i's factors start
 *            at item i * zones
 *   sheet    (of the calls named .._corrected) the text of a correction sheet: C lines
 *            as in a table, and nothing else, each index above the one before and
 *            below the table's rows; each replaces the table's row of its index, "-"
 *            in R taking the table's default.  The table is then the merged one.  An
 *            empty sheet changes nothing
 *   sheet    (of keravnoth_read_rows) the text of the planners' sheet: one line a row,
 *            as a C line without its letter, fields parted by semicolons, powers in
 *            MW with exactly three decimals, factors with exactly five, index and R
 *            as in a C line; all rows of the header, in index order
 *   p        one uint64_t a row and border, filled in by the extraction and by why: the
 *            factor that the border has on the row, from factor - to factor (of a
 *            border with hubs from factor - sending + receiving - to factor), and 0
 *            where that is negative; row i's start at item i * borders, border
 *            after border; 0 where the row's state is not 0
 *   marks    (of the calls named .._marked) one uint64_t a border that may rise: its
 *            index, in any order, each once.  Only these borders rise and only they
 *            are counted in n; the others keep what they start with.  S, starting
 *            margins and p are those of all borders
 *   claims   one record a claim that a row need not be published: the claimed row, D
 *            1..1000, how many pairs 0..16, and then the pairs: cited row, multiplier
 *            1..1000; what lies beyond its pairs is not looked at.  Claims are
 *            numbered from 0.  The same as text is one line a claim, Q, row, D, then
 *            row and multiplier of each pair, tabs and LF as in a table
 *   atc      one record a border: ATC, the last round that raised the border (0
 *            if none did), and the row that stopped it: the first of state 0 with
 *            p > 0 whose equal share of its margin left is under one kW for it; a
 *            border that is not marked has 0 and -1
 *   left     one record a row: state (0 kept, 1 under 5%, 2 parallel to a row
 *            that is kept), RAM in grains, margin left in grains or -1 where the
 *            state is not 0
 *   ends     (out of keravnoth_why) one record a border: where it started and where it
 *            ended, in kW
 *   holds    (out of keravnoth_why) one record a row: n (how many of the borders that
 *            may rise have p > 0 on it), its margin left in grains or -1 where its
 *            state is not 0, and what its equal share of that margin would still allow
 *            the asked border in one round, in kW: margin left / n / p, each quotient
 *            cut to a whole number.  This is 0 where the row holds the border, and -1
 *            where the row does not limit it: p is 0, the row's state is not 0, or the
 *            border is not marked.  n is 0 where the state is not 0
 *   parts    (out of keravnoth_margins) one record a row: state, n (how many borders
 *            have p > 0 on it, all borders counted), and in grains F0core, Fuaf, Base,
 *            AMR, S, LTA margin, CVA, IVA, RAM and the starting margin: RAM - S, or in
 *            an intraday table the remainder, 0 where negative; of every row, kept or
 *            not
 *   flows    (out of keravnoth_corner_flows) one int64_t a corner, corner 0
 *            first; corner k uses border b at its whole LTA where bit b of k is
 *            set, else at 0; its flow in grains is the sum over the used borders
 *            of (from factor - to factor) * LTA in kW, of a border with hubs (from
 *            factor - sending + receiving - to factor) * LTA, without F0core, and
 *            may be negative
 *
 * REFUSALS (field number of every answer; 0: no refusal; names below)
 *   1  a text (the table's, a sheet's, the claims') of more than 65,536
 *      bytes                                                        place 0
 *   2  the first faulty line has the wrong form, kind, index or
 *      field count, is missing, has no LF, or is extra              place: line, from 1
 *   3  the first faulty line has right form, a value outside its
 *      range, a hub that does not exist, two equal hubs, t that do
 *      not sum to 0 (at the last T line); or a lent record or
 *      header that no text could give (one hub alone)               place: line, from 1
 *   4  same from and to, and same hubs in their order, as an
 *      earlier border; one with hubs is never one without           place: first such border
 *   5  no row of state 0                                            place 0
 *   6  a border that loads no kept row (only marked ones are
 *      looked at)                                                   place: first such border
 *   7  a kept row's starting margin is below 0; not given in the
 *      intraday profile                                             place: first such row
 *   8  a lent buffer is too short                                   place: items needed in
 *                                                                   the first short one
 *   9  more than 12 borders; or else no such row (corner sheet      place: border count;
 *      only)                                                        the row's index
 *   10 the first faulty line of the sheet: its form or a value, an
 *      index that is not above the one before or that no row has    place: its line, from 1
 *   11 the first faulty claim is malformed or out of range: its row
 *      or a cited one is not kept (state 0), a row is claimed
 *      again, cited twice, or cited and claimed; D, a multiplier or
 *      the number of pairs is out of range                          place: its number
 *   12 the first faulty claim is not borne out: multiplier * factor
 *      summed over its pairs less D * factor of its row is not the
 *      same in each zone, or multiplier * RAM summed is over
 *      D * RAM                                                      place: its number
 *   13 no border is marked; or a mark is no border, or was given
 *      before                                                       place: 0; its position
 *                                                                   in marks, from 1
 *   14 no such border (why only)                                    place: border count
 *   A lent record has the line that it would have in the text: z i is line
 *   2 + i, t i is 2 + zones + i, b i is 2 + zones + i, or where t is there
 *   2 + 2 * zones + i, c i (its factors too) comes borders lines after b i; the
 *   header is line 1.
 *
 *   Byte (field byte of every answer): the byte to blame in the line that place
 *   names, from 1, or 0 where no byte is to blame.  Only keravnoth_read,
 *   keravnoth_read_rows and the calls with a correction sheet name one, and only with
 *   2, 3 and 10: the first byte from the left that no good field could have there,
 *   where an index is not the line's own or a value is outside its range the field's
 *   first byte (of two in conflict the later field's), where a field ends too soon
 *   the byte after it.  A wrong letter or field count, a line that is missing or
 *   extra, and every other refusal have 0, as has every call on lent tables.
 *
 *   Order.  keravnoth_read: 1, then 2 and 3 line by line, 4, 8; with a correction
 *   sheet 1 of either text, 2 to 4 of the table's, 10, 8; 5, 6 and 7 are of the
 *   merged table.  The calls on lent tables: the header (3), lengths (8) in the order
 *   z, t, b, c, f, p, records (3), 4; the extraction, the result text and the bound
 *   go on to 13, 5, 6, 7, why to 13, 14, 5, 6, 7, the corner sheet to 9, the claims to
 *   11 and 12, claim by claim (1 of their text goes first); last comes room for results
 *   (8), atc before left, ends before holds.  The corner sheet, the claims and the
 *   margins do not judge 5, 6, 7: a table that the extraction refuses has them.
 *
 * LENT MEMORY
 *   Each pointer goes with the count of its items (records for b, c, claims, atc,
 *   left, ends, holds and parts; numbers for z, t, f, p, marks and flows; bytes for
 *   text, sheet, list and for out that takes text) and points to that many; it is
 *   aligned for its type.  What is written to overlaps nothing else that is lent.
 *   Nothing is kept after the call, nothing is allocated.
 *   A pointer is not NULL, also where its count is 0: a count of 0 is allowed
 *   everywhere, with any pointer to an object of the type.  (NULL with count 0
 *   was tried in every call and answers as a count of 0 does; the proof does not
 *   speak of it, and another compiler may use that no pointer is NULL.)
 *   A refused call leaves every lent buffer as it was.  After success what lies
 *   beyond the items needed is as it was.  A lent table may be longer than its
 *   header says; what lies beyond is not looked at.
 *   On refusal the fields after byte are 0; without a refusal place and byte are 0.
 *
 * ANSWERS IN TEXT
 *   The calls that answer a text with a text (keravnoth_answer, keravnoth_answer_marked,
 *   keravnoth_answer_corrected) tell a refused table by an E line in out: the call itself
 *   is not refused, and number is 0.  told_number, told_place and told_byte are the E
 *   line's own; all three are 0 where out has a result (proved, crates/interface:
 *   proofs/Told).  So file out where number and told_number are both 0.
 *
 * REAL TIME
 *   Blocking   no call ever blocks, waits, allocates, locks, calls the system or fails
 *              otherwise than by a refusal; each ends for every input (proved).  It
 *              calls nothing but memcpy and memset.
 *   Rounds     an extraction, and each call that makes one (result_text, answer, why),
 *              takes at most KERAVNOTH_ROUNDS_MOST rounds for any table, with T lines
 *              KERAVNOTH_ROUNDS_INTRADAY_MOST (proved); for the table at hand at most
 *              `sharp` of keravnoth_bound, which makes no round.  A round costs in the
 *              order of rows x borders (docs/BENCH.md has times).
 *   Memory     what is lent, and the stack; nothing is kept between calls.  All buffers
 *              of an hour, of the largest table too, are sizeof (struct KeravnothHour)
 *              of keravnoth_easy.h: KERAVNOTH_HOUR_BYTES.
 *   Threads    calls may run in several threads at once, as long as nothing that one call
 *              writes to is lent to another at the same time.  The library has no state:
 *              no static variable, no heap, no file; a call touches what it is lent and
 *              its own stack.
 *   Stack      KERAVNOTH_READ_STACK and so on are the bytes that a call takes at most
 *              below its caller's frame; a thread that calls needs so much beyond its own
 *              frames.  They are measured, not proved: c/check.c makes each call first and
 *              alone in a process of its own, over every example hour, the largest stored
 *              cases, the fullest claims and texts that are refused, and looks how much of
 *              a painted stack is gone, on the x86-64 code of the library.  A figure is the
 *              most that was measured, arguments included, and 256 bytes more for another
 *              compiler of the caller and another memcpy, rounded up to whole KiB.
 *              The figures are of a program that is bound at once (-z now, LD_BIND_NOW).
 *              One that is bound lazily needs KERAVNOTH_BINDING_STACK beyond them: the call
 *              that first reaches memcpy or memset has the linker's work on its stack,
 *              which saves the processor's registers there (measured by the same rule, with
 *              those of AVX-512).  The shared library is bound at once.
 *   Signals    a call may be interrupted and never resumed: it holds nothing.  What it was
 *              lent to write to then holds a part of the answer.
 *
 * VERSION
 *   MAJOR.MINOR.PATCH.  Major rises where a caller has to be changed or compiled again,
 *   minor where something is added, patch where nothing that a caller can see changed.
 *   KERAVNOTH_VERSION and keravnoth_version give 10000 * major + 100 * minor + patch, of
 *   the header that was compiled and of the library that was linked.  A call's symbol
 *   bears the major number (keravnoth_read is keravnoth_1_read), so that an object that
 *   was compiled against a header of another one does not link, and a binding that names
 *   the symbols itself does not load.  keravnoth_version has no number in its symbol: it
 *   can be asked of every library.  (Before 1.0.0 KERAVNOTH_VERSION was a running number,
 *   15 at last, so it still rises; symbols bore no number, so no such object links.)
 */
#ifndef KERAVNOTH_H
#define KERAVNOTH_H

#include <stddef.h>
#include <stdint.h>

#if SIZE_MAX != 0xffffffffffffffff
#error "keravnoth.h: the library is x86-64 code, where size_t has 64 bits"
#endif

#ifdef __cplusplus
extern "C" {
#endif

#define KERAVNOTH_VERSION_MAJOR 1
#define KERAVNOTH_VERSION_MINOR 0
#define KERAVNOTH_VERSION_PATCH 0
#define KERAVNOTH_VERSION \
    (10000 * KERAVNOTH_VERSION_MAJOR + 100 * KERAVNOTH_VERSION_MINOR + KERAVNOTH_VERSION_PATCH)

/* The symbols of the calls: see VERSION above. */
#define keravnoth_read keravnoth_1_read
#define keravnoth_read_corrected keravnoth_1_read_corrected
#define keravnoth_write keravnoth_1_write
#define keravnoth_rewrite_corrected keravnoth_1_rewrite_corrected
#define keravnoth_extract keravnoth_1_extract
#define keravnoth_extract_marked keravnoth_1_extract_marked
#define keravnoth_result_text keravnoth_1_result_text
#define keravnoth_result_text_marked keravnoth_1_result_text_marked
#define keravnoth_answer keravnoth_1_answer
#define keravnoth_answer_marked keravnoth_1_answer_marked
#define keravnoth_answer_corrected keravnoth_1_answer_corrected
#define keravnoth_corner_flows keravnoth_1_corner_flows
#define keravnoth_corner_text keravnoth_1_corner_text
#define keravnoth_claims keravnoth_1_claims
#define keravnoth_published_text keravnoth_1_published_text
#define keravnoth_bound keravnoth_1_bound
#define keravnoth_bound_marked keravnoth_1_bound_marked
#define keravnoth_margins keravnoth_1_margins
#define keravnoth_read_rows keravnoth_1_read_rows
#define keravnoth_write_rows keravnoth_1_write_rows
#define keravnoth_why keravnoth_1_why
#define keravnoth_why_marked keravnoth_1_why_marked
#define keravnoth_refusal_text keravnoth_1_refusal_text

/* Before C23 a pointer to an array is no pointer to a const array, and passing one is a
   warning: there the calls do not say const of records that they only read, and a table
   that is const itself is cast. */
#if defined(__cplusplus) || (defined(__STDC_VERSION__) && __STDC_VERSION__ > 201710L)
#define KERAVNOTH_READS const
#else
#define KERAVNOTH_READS
#endif

/* The largest table, in items. */
enum {
    KERAVNOTH_ZONES_MOST = 16,
    KERAVNOTH_BORDERS_MOST = 64,
    KERAVNOTH_ROWS_MOST = 200,
    KERAVNOTH_FACTORS_MOST = 3200,
    KERAVNOTH_P_MOST = 12800,
    KERAVNOTH_CORNER_BORDERS_MOST = 12,
    KERAVNOTH_CORNERS_MOST = 4096
};

/* Room for texts, in bytes: what keravnoth_read looks at, and what each call writes
   at most, by its longest line.  A buffer of this length is never too short; each is
   proved. */
enum {
    KERAVNOTH_TEXT_MOST = 65536,
    KERAVNOTH_WRITE_MOST = 58212,
    KERAVNOTH_RESULT_TEXT_MOST = 22790,
    KERAVNOTH_ANSWER_MOST = 22790,
    KERAVNOTH_CORNER_TEXT_MOST = 110592,
    KERAVNOTH_PUBLISHED_TEXT_MOST = 8800,
    KERAVNOTH_WRITE_ROWS_MOST = 60200,
    KERAVNOTH_REFUSAL_TEXT_MOST = 215
};

/* The most rounds of any table, and of one with T lines; each is proved. */
enum {
    KERAVNOTH_ROUNDS_MOST = 1852,
    KERAVNOTH_ROUNDS_INTRADAY_MOST = 1910
};

/* Refusals. */
enum {
    KERAVNOTH_ACCEPTED = 0,
    KERAVNOTH_TOO_LONG = 1,
    KERAVNOTH_WRONG_FORM = 2,
    KERAVNOTH_OUT_OF_RANGE = 3,
    KERAVNOTH_GIVEN_TWICE = 4,
    KERAVNOTH_NO_ROW_KEPT = 5,
    KERAVNOTH_BORDER_UNLIMITED = 6,
    KERAVNOTH_MARGIN_BELOW_0 = 7,
    KERAVNOTH_BUFFER_TOO_SHORT = 8,
    KERAVNOTH_NO_CORNER_SHEET = 9,
    KERAVNOTH_WRONG_CORRECTION = 10,
    KERAVNOTH_MALFORMED_CLAIM = 11,
    KERAVNOTH_NOT_BORNE_OUT = 12,
    KERAVNOTH_BAD_MARK = 13,
    KERAVNOTH_NO_SUCH_BORDER = 14
};

/* The fields of a record of b, and how many there are; both hubs where the border has
   none. */
enum {
    KERAVNOTH_B_FROM,
    KERAVNOTH_B_TO,
    KERAVNOTH_B_LTA,
    KERAVNOTH_B_SENDING,
    KERAVNOTH_B_RECEIVING,
    KERAVNOTH_B_ITEMS,
    KERAVNOTH_NO_HUB = -1
};

/* The fields of a record of c, and how many there are; R where "-" is written. */
enum {
    KERAVNOTH_C_FMAX,
    KERAVNOTH_C_FRM,
    KERAVNOTH_C_FREF,
    KERAVNOTH_C_F0ALL,
    KERAVNOTH_C_R,
    KERAVNOTH_C_CVA,
    KERAVNOTH_C_IVA,
    KERAVNOTH_C_ITEMS,
    KERAVNOTH_R_DASH = -1
};

/* The fields of a claim: these, and two for each pair; the most pairs, and how many
   fields a record has. */
enum {
    KERAVNOTH_CLAIM_ROW,
    KERAVNOTH_CLAIM_D,
    KERAVNOTH_CLAIM_PAIRS,
    KERAVNOTH_CLAIM_FIRST_PAIR,
    KERAVNOTH_CLAIM_PAIRS_MOST = 16,
    KERAVNOTH_CLAIM_ITEMS = 35
};

/* The fields of a record of atc, and how many there are; the stopping row of a border
   that is not marked (every other border has one). */
enum {
    KERAVNOTH_ATC_MW,
    KERAVNOTH_ATC_LAST_ROUND,
    KERAVNOTH_ATC_STOP_ROW,
    KERAVNOTH_ATC_ITEMS,
    KERAVNOTH_NO_ROW = -1
};

/* The fields of a record of left, and how many there are; the states; the margin left
   where the state is not 0. */
enum {
    KERAVNOTH_LEFT_STATE,
    KERAVNOTH_LEFT_RAM,
    KERAVNOTH_LEFT_MARGIN,
    KERAVNOTH_LEFT_ITEMS,
    KERAVNOTH_STATE_KEPT = 0,
    KERAVNOTH_STATE_UNDER_5 = 1,
    KERAVNOTH_STATE_PARALLEL = 2,
    KERAVNOTH_NO_MARGIN = -1
};

/* The fields of a record of ends, and how many there are. */
enum {
    KERAVNOTH_ENDS_START,
    KERAVNOTH_ENDS_END,
    KERAVNOTH_ENDS_ITEMS
};

/* The fields of a record of holds, and how many there are.  The margin left where the
   state is not 0 is KERAVNOTH_NO_MARGIN.  KERAVNOTH_HOLDS is what a row that holds the
   border allows it; KERAVNOTH_NO_LIMIT stands for a row that does not limit it. */
enum {
    KERAVNOTH_HOLDS_N,
    KERAVNOTH_HOLDS_MARGIN,
    KERAVNOTH_HOLDS_ALLOWS,
    KERAVNOTH_HOLDS_ITEMS,
    KERAVNOTH_HOLDS = 0,
    KERAVNOTH_NO_LIMIT = -1
};

/* The fields of a record of parts, and how many there are. */
enum {
    KERAVNOTH_PARTS_STATE,
    KERAVNOTH_PARTS_N,
    KERAVNOTH_PARTS_F0CORE,
    KERAVNOTH_PARTS_FUAF,
    KERAVNOTH_PARTS_BASE,
    KERAVNOTH_PARTS_AMR,
    KERAVNOTH_PARTS_S,
    KERAVNOTH_PARTS_LTA_MARGIN,
    KERAVNOTH_PARTS_CVA,
    KERAVNOTH_PARTS_IVA,
    KERAVNOTH_PARTS_RAM,
    KERAVNOTH_PARTS_START,
    KERAVNOTH_PARTS_ITEMS
};

/* Grains to a kW, kW to a MW. */
enum {
    KERAVNOTH_GRAINS_PER_KW = 100000,
    KERAVNOTH_KW_PER_MW = 1000
};

/* The stack that each call needs, in bytes, and what lazy binding adds: see REAL TIME
   above. */
enum {
    KERAVNOTH_READ_STACK = 43008,
    KERAVNOTH_READ_CORRECTED_STACK = 43008,
    KERAVNOTH_WRITE_STACK = 2048,
    KERAVNOTH_REWRITE_CORRECTED_STACK = 43008,
    KERAVNOTH_EXTRACT_STACK = 17408,
    KERAVNOTH_EXTRACT_MARKED_STACK = 17408,
    KERAVNOTH_RESULT_TEXT_STACK = 125952,
    KERAVNOTH_RESULT_TEXT_MARKED_STACK = 125952,
    KERAVNOTH_ANSWER_STACK = 165888,
    KERAVNOTH_ANSWER_MARKED_STACK = 165888,
    KERAVNOTH_ANSWER_CORRECTED_STACK = 165888,
    KERAVNOTH_CORNER_FLOWS_STACK = 2048,
    KERAVNOTH_CORNER_TEXT_STACK = 34816,
    KERAVNOTH_CLAIMS_STACK = 7168,
    KERAVNOTH_PUBLISHED_TEXT_STACK = 8192,
    KERAVNOTH_BOUND_STACK = 113664,
    KERAVNOTH_BOUND_MARKED_STACK = 113664,
    KERAVNOTH_MARGINS_STACK = 6144,
    KERAVNOTH_READ_ROWS_STACK = 38912,
    KERAVNOTH_WRITE_ROWS_STACK = 1024,
    KERAVNOTH_WHY_STACK = 19456,
    KERAVNOTH_WHY_MARKED_STACK = 19456,
    KERAVNOTH_REFUSAL_TEXT_STACK = 2048,
    KERAVNOTH_VERSION_STACK = 1024,
    KERAVNOTH_BINDING_STACK = 4096
};

/* The header of a table, by value; share where the H line does not write it, and
   what "-" is worth then; intraday where t is there, and where it is not. */
struct KeravnothHeader {
    size_t zones;
    size_t borders;
    size_t rows;
    int64_t share;
    size_t intraday;
};
enum {
    KERAVNOTH_SHARE_UNWRITTEN = -1,
    KERAVNOTH_SHARE_STANDARD = 7000,
    KERAVNOTH_DAY_AHEAD = 0,
    KERAVNOTH_INTRADAY = 1
};

/* Reading: the header of the table that was read. */
struct KeravnothRead {
    uint32_t number;
    size_t place;
    size_t byte;
    size_t zones;
    size_t borders;
    size_t rows;
    int64_t share;
    size_t intraday;
};

/* Text that was written: its bytes. */
struct KeravnothWritten {
    uint32_t number;
    size_t place;
    size_t byte;
    size_t bytes;
};

/* An answer in text: its bytes, and what the text tells, the number, place and byte of
   its E line, all 0 where it is a result. */
struct KeravnothAnswered {
    uint32_t number;
    size_t place;
    size_t byte;
    size_t bytes;
    uint32_t told_number;
    size_t told_place;
    size_t told_byte;
};

/* The extraction: rounds that raised something. */
struct KeravnothExtracted {
    uint32_t number;
    size_t place;
    size_t byte;
    uint64_t rounds;
};

/* The corner sheet: corners whose flows were filled in. */
struct KeravnothFlows {
    uint32_t number;
    size_t place;
    size_t byte;
    size_t corners;
};

/* A judgement alone. */
struct KeravnothJudged {
    uint32_t number;
    size_t place;
    size_t byte;
};

/* The bound of the rounds: N, L, and 2 x N x L, which the rounds are never more than.
   sharp is the sharper bound: the rounds are never more than it, and it is never more
   than rounds. */
struct KeravnothBounded {
    uint32_t number;
    size_t place;
    size_t byte;
    uint64_t sharers;
    uint64_t bits;
    uint64_t rounds;
    uint64_t sharp;
};

/* Why a border got no more.  rounds: how many rounds raised something.  last: the last
   of them that raised the border, 0 if none did.  named: the row that the result names
   for it, its stopping row: the first of state 0 with p > 0 whose equal share of its
   margin left is under one kW for it.  ended: the row that ended its rise: the first such
   row by the margins that were left after round last, or at the start where last is 0.
   It is often another row than named.  A border that is not marked has 0 in last, and
   KERAVNOTH_NO_ROW in named and ended; every other border has both rows. */
struct KeravnothExplained {
    uint32_t number;
    size_t place;
    size_t byte;
    uint64_t rounds;
    uint64_t last;
    int64_t named;
    int64_t ended;
};

/* The version of the library that is linked, as KERAVNOTH_VERSION is the header's. */
uint32_t keravnoth_version(void);

/* What a refusal's number means, in words and without a NUL; a # stands where the
   refusal's place belongs.  Any number has words, 0 too.  Refusal 8. */
struct KeravnothWritten keravnoth_refusal_text(
    uint64_t number,
    uint8_t *out, size_t nout);

/* Reads a table's text into z, t, b, c and f.  Refusals 1, 2, 3, 4, 8. */
struct KeravnothRead keravnoth_read(
    const uint8_t *text, size_t n,
    int64_t *z, size_t nz,
    int64_t *t, size_t nt,
    int64_t (*b)[KERAVNOTH_B_ITEMS], size_t nb,
    int64_t (*c)[KERAVNOTH_C_ITEMS], size_t nc,
    int64_t *f, size_t nf);

/* Reads a table's text, as a sheet corrects it, into z, t, b, c and f.  Refusals 1, 2,
   3, 4, 8, 10. */
struct KeravnothRead keravnoth_read_corrected(
    const uint8_t *text, size_t n,
    const uint8_t *sheet, size_t nsheet,
    int64_t *z, size_t nz,
    int64_t *t, size_t nt,
    int64_t (*b)[KERAVNOTH_B_ITEMS], size_t nb,
    int64_t (*c)[KERAVNOTH_C_ITEMS], size_t nc,
    int64_t *f, size_t nf);

/* Writes the tables as text; text that is read and written again is the same.
   Refusals 3, 4, 8. */
struct KeravnothWritten keravnoth_write(
    struct KeravnothHeader header,
    const int64_t *z, size_t nz,
    const int64_t *t, size_t nt,
    KERAVNOTH_READS int64_t (*b)[KERAVNOTH_B_ITEMS], size_t nb,
    KERAVNOTH_READS int64_t (*c)[KERAVNOTH_C_ITEMS], size_t nc,
    const int64_t *f, size_t nf,
    uint8_t *out, size_t nout);

/* From text to text: the table as a sheet corrects it, written again.  Refusals 1, 2,
   3, 4, 8, 10. */
struct KeravnothWritten keravnoth_rewrite_corrected(
    const uint8_t *text, size_t n,
    const uint8_t *sheet, size_t nsheet,
    uint8_t *out, size_t nout);

/* Capacities and margins from the tables, and the factors by border that they
   follow from.  Refusals 3 to 8. */
struct KeravnothExtracted keravnoth_extract(
    struct KeravnothHeader header,
    const int64_t *z, size_t nz,
    const int64_t *t, size_t nt,
    KERAVNOTH_READS int64_t (*b)[KERAVNOTH_B_ITEMS], size_t nb,
    KERAVNOTH_READS int64_t (*c)[KERAVNOTH_C_ITEMS], size_t nc,
    const int64_t *f, size_t nf,
    uint64_t *p, size_t np,
    int64_t (*atc)[KERAVNOTH_ATC_ITEMS], size_t natc,
    int64_t (*left)[KERAVNOTH_LEFT_ITEMS], size_t nleft);

/* Capacities, margins and factors by border where only the marked borders may rise.
   Refusals 3 to 8, 13. */
struct KeravnothExtracted keravnoth_extract_marked(
    struct KeravnothHeader header,
    const int64_t *z, size_t nz,
    const int64_t *t, size_t nt,
    KERAVNOTH_READS int64_t (*b)[KERAVNOTH_B_ITEMS], size_t nb,
    KERAVNOTH_READS int64_t (*c)[KERAVNOTH_C_ITEMS], size_t nc,
    const int64_t *f, size_t nf,
    uint64_t *p, size_t np,
    const uint64_t *marks, size_t nmarks,
    int64_t (*atc)[KERAVNOTH_ATC_ITEMS], size_t natc,
    int64_t (*left)[KERAVNOTH_LEFT_ITEMS], size_t nleft);

/* The extraction as text: A lines (index, ATC, last round, stopping row), M lines (index,
   state, RAM, margin left or "-"), one R line (rounds).  Refusals 3 to 8. */
struct KeravnothWritten keravnoth_result_text(
    struct KeravnothHeader header,
    const int64_t *z, size_t nz,
    const int64_t *t, size_t nt,
    KERAVNOTH_READS int64_t (*b)[KERAVNOTH_B_ITEMS], size_t nb,
    KERAVNOTH_READS int64_t (*c)[KERAVNOTH_C_ITEMS], size_t nc,
    const int64_t *f, size_t nf,
    uint8_t *out, size_t nout);

/* The extraction as text, with the same lines, where only the marked borders may rise.
   Refusals 3 to 8, 13. */
struct KeravnothWritten keravnoth_result_text_marked(
    struct KeravnothHeader header,
    const int64_t *z, size_t nz,
    const int64_t *t, size_t nt,
    KERAVNOTH_READS int64_t (*b)[KERAVNOTH_B_ITEMS], size_t nb,
    KERAVNOTH_READS int64_t (*c)[KERAVNOTH_C_ITEMS], size_t nc,
    const int64_t *f, size_t nf,
    const uint64_t *marks, size_t nmarks,
    uint8_t *out, size_t nout);

/* From text to text: the result text, or one line E, number, place,
   byte.  Refused only where out is too short (8, bytes needed).
   A refused table has number 0 and an E line in out: look at told_number too. */
struct KeravnothAnswered keravnoth_answer(
    const uint8_t *text, size_t n,
    uint8_t *out, size_t nout);

/* From text to text, where only the marked borders may rise.  Refused as
   keravnoth_answer is.
   A refused table has number 0 and an E line in out: look at told_number too. */
struct KeravnothAnswered keravnoth_answer_marked(
    const uint8_t *text, size_t n,
    const uint64_t *marks, size_t nmarks,
    uint8_t *out, size_t nout);

/* From text to text, of the table as a sheet corrects it.  Refused as
   keravnoth_answer is.
   A refused table has number 0 and an E line in out: look at told_number too. */
struct KeravnothAnswered keravnoth_answer_corrected(
    const uint8_t *text, size_t n,
    const uint8_t *sheet, size_t nsheet,
    uint8_t *out, size_t nout);

/* The flows of all corners of one row: 2^borders numbers.  row may be any number.
   Refusals 3, 4, 8, 9. */
struct KeravnothFlows keravnoth_corner_flows(
    struct KeravnothHeader header,
    const int64_t *z, size_t nz,
    const int64_t *t, size_t nt,
    KERAVNOTH_READS int64_t (*b)[KERAVNOTH_B_ITEMS], size_t nb,
    KERAVNOTH_READS int64_t (*c)[KERAVNOTH_C_ITEMS], size_t nc,
    const int64_t *f, size_t nf,
    size_t row,
    int64_t *out, size_t nout);

/* The flows of all corners of one row as text: a K line (row, corner, flow) for each
   corner.  It may have more than 65,536 bytes: that limit is for text that is read.
   Refusals 3, 4, 8, 9. */
struct KeravnothWritten keravnoth_corner_text(
    struct KeravnothHeader header,
    const int64_t *z, size_t nz,
    const int64_t *t, size_t nt,
    KERAVNOTH_READS int64_t (*b)[KERAVNOTH_B_ITEMS], size_t nb,
    KERAVNOTH_READS int64_t (*c)[KERAVNOTH_C_ITEMS], size_t nc,
    const int64_t *f, size_t nf,
    size_t row,
    uint8_t *out, size_t nout);

/* Whether each claim of a list is well formed and borne out, so that without the claimed
   rows, all at once, the kept rows allow the same net positions that sum to zero.
   Refusals 3, 4, 8, 11, 12. */
struct KeravnothJudged keravnoth_claims(
    struct KeravnothHeader header,
    const int64_t *z, size_t nz,
    const int64_t *t, size_t nt,
    KERAVNOTH_READS int64_t (*b)[KERAVNOTH_B_ITEMS], size_t nb,
    KERAVNOTH_READS int64_t (*c)[KERAVNOTH_C_ITEMS], size_t nc,
    const int64_t *f, size_t nf,
    KERAVNOTH_READS int64_t (*claims)[KERAVNOTH_CLAIM_ITEMS], size_t nclaims);

/* The published list of the claims that a text holds: a D line (row, RAM) for each kept
   row that is not claimed.  Refusals 1, 3, 4, 8, 11, 12. */
struct KeravnothWritten keravnoth_published_text(
    struct KeravnothHeader header,
    const int64_t *z, size_t nz,
    const int64_t *t, size_t nt,
    KERAVNOTH_READS int64_t (*b)[KERAVNOTH_B_ITEMS], size_t nb,
    KERAVNOTH_READS int64_t (*c)[KERAVNOTH_C_ITEMS], size_t nc,
    const int64_t *f, size_t nf,
    const uint8_t *list, size_t nlist,
    uint8_t *out, size_t nout);

/* How many rounds the extraction of these tables can take at most, known before the first
   of them: it does what comes before the rounds, and no round.  Refusals 3 to 8, as the
   extraction's, but no room is asked for. */
struct KeravnothBounded keravnoth_bound(
    struct KeravnothHeader header,
    const int64_t *z, size_t nz,
    const int64_t *t, size_t nt,
    KERAVNOTH_READS int64_t (*b)[KERAVNOTH_B_ITEMS], size_t nb,
    KERAVNOTH_READS int64_t (*c)[KERAVNOTH_C_ITEMS], size_t nc,
    const int64_t *f, size_t nf);

/* How many rounds the extraction can take at most where only the marked borders may
   rise.  Refusals 3 to 8, 13. */
struct KeravnothBounded keravnoth_bound_marked(
    struct KeravnothHeader header,
    const int64_t *z, size_t nz,
    const int64_t *t, size_t nt,
    KERAVNOTH_READS int64_t (*b)[KERAVNOTH_B_ITEMS], size_t nb,
    KERAVNOTH_READS int64_t (*c)[KERAVNOTH_C_ITEMS], size_t nc,
    const int64_t *f, size_t nf,
    const uint64_t *marks, size_t nmarks);

/* What the margin of each row is made of, also of tables that the extraction refuses.
   Refusals 3, 4, 8. */
struct KeravnothJudged keravnoth_margins(
    struct KeravnothHeader header,
    const int64_t *z, size_t nz,
    const int64_t *t, size_t nt,
    KERAVNOTH_READS int64_t (*b)[KERAVNOTH_B_ITEMS], size_t nb,
    KERAVNOTH_READS int64_t (*c)[KERAVNOTH_C_ITEMS], size_t nc,
    const int64_t *f, size_t nf,
    int64_t (*out)[KERAVNOTH_PARTS_ITEMS], size_t nout);

/* Reads the rows of the planners' sheet into c and f.  Refusals 1, 2, 3, 8, in this order
   but for the header, which is judged (3, line 1) before the lines; place is the
   sheet's line. */
struct KeravnothJudged keravnoth_read_rows(
    struct KeravnothHeader header,
    const uint8_t *sheet, size_t nsheet,
    int64_t (*c)[KERAVNOTH_C_ITEMS], size_t nc,
    int64_t *f, size_t nf);

/* Writes rows as the planners' sheet; a sheet that is read and written again is the same.
   Refusals 3, 8; place is the header's line 1 or the sheet's line. */
struct KeravnothWritten keravnoth_write_rows(
    struct KeravnothHeader header,
    KERAVNOTH_READS int64_t (*c)[KERAVNOTH_C_ITEMS], size_t nc,
    const int64_t *f, size_t nf,
    uint8_t *out, size_t nout);

/* Why the extraction gave a border no more: its reasons, of each border where it started
   and ended, of each row what it would still allow the border, and p as the extraction
   leaves it.  border may be any number.  Refusals 3 to 8, 14. */
struct KeravnothExplained keravnoth_why(
    struct KeravnothHeader header,
    const int64_t *z, size_t nz,
    const int64_t *t, size_t nt,
    KERAVNOTH_READS int64_t (*b)[KERAVNOTH_B_ITEMS], size_t nb,
    KERAVNOTH_READS int64_t (*c)[KERAVNOTH_C_ITEMS], size_t nc,
    const int64_t *f, size_t nf,
    uint64_t border,
    uint64_t *p, size_t np,
    int64_t (*ends)[KERAVNOTH_ENDS_ITEMS], size_t nends,
    int64_t (*holds)[KERAVNOTH_HOLDS_ITEMS], size_t nholds);

/* Why a border got no more, where only the marked borders may rise.  Refusals 3 to 8,
   13, 14. */
struct KeravnothExplained keravnoth_why_marked(
    struct KeravnothHeader header,
    const int64_t *z, size_t nz,
    const int64_t *t, size_t nt,
    KERAVNOTH_READS int64_t (*b)[KERAVNOTH_B_ITEMS], size_t nb,
    KERAVNOTH_READS int64_t (*c)[KERAVNOTH_C_ITEMS], size_t nc,
    const int64_t *f, size_t nf,
    const uint64_t *marks, size_t nmarks,
    uint64_t border,
    uint64_t *p, size_t np,
    int64_t (*ends)[KERAVNOTH_ENDS_ITEMS], size_t nends,
    int64_t (*holds)[KERAVNOTH_HOLDS_ITEMS], size_t nholds);

#ifdef __cplusplus
}
#endif

#endif
