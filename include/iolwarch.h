/* Iolwarch: the reallocation ledger (MRE) of hydropower plants, in whole kWh.
 *
 * Link with crates/recorder/out/librecorder.a, which `rt lib` in crates/recorder writes (x86-64 Linux). It needs memcpy and
 * memset of the C library, and nothing else. The functions keep nothing between calls, allocate nothing, end on every
 * input, and may be called from any thread, by several at once on lists of their own.
 *
 * Every call but iolwarch_file_begin, which has nothing to refuse, answers a number: 0 when it did what it is for, and
 * otherwise the number of the first question that was answered no (table below). A refusal changes nothing: every list
 * is as it was, the month, or a file's state, is the caller's own, and every other part of the answer but the number is
 * zero.
 *
 * Lists. A list is a pointer and its length, counted in elements, and has that many elements behind the pointer. The
 * pointer is never NULL, also where the length is 0; it is aligned for its element. During a call nobody else writes to
 * a list that the call reads, or touches a list that the call writes, and a list that the call writes overlaps none of
 * its other lists. What figures a list holds is free: no value in it makes a call go wrong. No zero byte is written
 * behind a statement or a text: go by the length that the call answers.
 *
 * The month goes from call to call by value: keep the one that a call hands back, and pass it to the next. It and the
 * ledger's two lists are all that goes on; plants, profile, metered figures and the allotment list belong to one call.
 * Leave month and ledger alone between calls: no call can tell that a ledger figure was changed to another inside its
 * bound, and it is settled on and stated as if it had come from the hours.
 *
 * For a whole month file there is iolwarch_workspace: begin, feed the bytes in parts of any size, finish.
 *
 * Stack. A call needs at most IOLWARCH_STACK bytes of its thread's stack, its arguments and its answer included,
 * whatever the size of the month; feeding a file needs most. The figure is measured on the archive as built (tests/c/stack.c),
 * has a margin, and is not proved. What signal handlers need on that stack comes on top.
 */
#ifndef IOLWARCH_H
#define IOLWARCH_H

#include <stddef.h>
#include <stdint.h>

#ifdef __cplusplus
extern "C" {
#endif

/* The stack that a call needs, in bytes. */
#define IOLWARCH_STACK 98304

/* The most plants and periods that a month has, and the most bytes that a line of its file has. */
#define IOLWARCH_PLANTS 512
#define IOLWARCH_PERIODS 744
#define IOLWARCH_LINE 8192

/* The places that a month file's plant table needs, in its five columns. */
#define IOLWARCH_COLUMNS (5 * IOLWARCH_PLANTS)

/* The numbers, from the questions of document 01. Each line says what must hold; where it does not, its number is
 * answered. P is the number of plants, H the number of periods, TEO the tariff. 5 to 8 are put row by row: all four of
 * a row before the first of the next.
 *
 *    0  every question was answered yes
 *
 *  Opening a month
 *    1  no month is open
 *    2  P is 1 to 512
 *    3  H is 1 to 744
 *    4  TEO is 0 to 10,000 centavos per MWh
 *    5  each row: submarket 1 to 4, and not below the row before
 *    6  each row: plant number 1 to 999,999, and in the same submarket above the row before
 *    7  each row: monthly guarantee 0 to 10^12 kWh
 *    8  each row: loss and availability factor 0 to 1,000,000 millionths
 *    9  every profile figure is 0 to 2 x 10^9 kWh
 *   10  the profile's sum is above 0
 *   11  the ledger lists have exactly 4P and 2P figures
 *
 *  Settling an hour (2 to 11 are put here too)
 *   12  a month is open
 *   13  as many rows and profile figures are lent as the month has (for a statement, rows only)
 *   14  the period due is 1 to H (for a statement, H + 1 passes too)
 *   15  P metered figures are lent
 *   16  each metered figure is at most 2 x 10^9 kWh
 *   17  their sum equals the profile's figure for the period due
 *   18  the allotment list has exactly 4P figures
 *   19  every ledger figure is inside its bound: 0 to 1,488 x 10^9 kWh allotted, nets within 1,488 x 10^9 kWh of
 *       zero, money within 1,488 x 10^13 thousandths of a centavo of zero; in settle before and after the hour is
 *       added, in balance and statement of the ledger as it is
 *
 *  Closing, balance, statement
 *   20  the last period is settled, so that H + 1 is due
 *   21  the month is not blank
 *   22  at least 128P + 128 bytes are lent (for a file's finish, 65,664)
 *
 *  Transfer step and sharing
 *   23  all eight figures are at most 2 x 10^9, the needs no more than what is left in sum, no submarket has both
 *   24  the lists are equally long, and the sum of the weights and the total are each below 2^62
 *   25  the total is 0, or the sum of the weights is above 0
 *
 *  Reading a line and a file
 *   26  the line has at most 8,192 bytes
 *   27  it starts with "MRE,1," or "P," or "H," or "G,"
 *   28  it has 3, 5, 2, or 2 to 513 fields after that start; for a field call: it has such a field
 *   29  every field is 1 to 19 digits, with no leading zero but "0" itself
 *   30  the figure list is long enough; for a file's feed and finish: every list but the text is
 *   31  the line is in turn, has its end byte 10, and the file neither ends early nor goes on after the last G line; for
 *       feed and finish: state and lists fit together, as they do after every feed
 */

/* One figure for each of submarkets 1 to 4, in that order. */
typedef struct {
    uint64_t kwh[4];
} iolwarch_by_submarket;

/* A transfer table, giver by receiver: rows[g][r] is what submarket g + 1 gives to submarket r + 1. */
typedef struct {
    uint64_t rows[4][4];
} iolwarch_table;

/* The answer of the transfer step. */
typedef struct {
    uint64_t number;
    iolwarch_table table;
} iolwarch_transferred;

/* A plant record: submarket 1 to 4, number, monthly guarantee Q in kWh, loss and availability factors in millionths. */
typedef struct {
    uint64_t submarket;
    uint64_t number;
    uint64_t guarantee;
    uint64_t loss;
    uint64_t availability;
} iolwarch_plant;

/* The month. Stage: 0 blank, 1 open, 2 closed; any other number is read as blank. A month of zeros is a blank one. */
typedef struct {
    uint64_t stage;
    uint64_t plants;  /* P */
    uint64_t periods; /* H */
    uint64_t tariff;  /* TEO, in centavos per MWh */
    uint64_t due;     /* the period due, from 1 */
} iolwarch_month;

/* The answer of open and of close. */
typedef struct {
    uint64_t number;
    iolwarch_month month;
} iolwarch_end;

/* The answer of settle: Z (the secondary energy), A (the sum of the guarantees after losses and availability), and both
 * transfer tables: by which deficits were covered, and by which secondary energy was shared. */
typedef struct {
    uint64_t number;
    iolwarch_month month;
    uint64_t secondary;
    uint64_t guarantees;
    iolwarch_table cover_table;
    iolwarch_table secondary_table;
} iolwarch_settled;

/* The answer of balance: the sum of each submarket's column, of the nets (kWh) and of the money (thousandths of a
 * centavo). */
typedef struct {
    uint64_t number;
    iolwarch_month month;
    uint64_t columns[4];
    int64_t net;
    int64_t money;
} iolwarch_sums;

/* The answer of statement: the statement's length in bytes. */
typedef struct {
    uint64_t number;
    iolwarch_month month;
    uint64_t length;
} iolwarch_stated;

/* The answer of statement_size: as many bytes as the statement has, or more, and at most 128P + 128. */
typedef struct {
    uint64_t number;
    iolwarch_month month;
    uint64_t size;
} iolwarch_sized;

/* The answer of reading a line. Start: 1 "MRE,1,", 2 "P,", 3 "H,", 4 "G,". */
typedef struct {
    uint64_t number;
    uint64_t start;
    uint64_t fields;
} iolwarch_line;

/* The answer of the field call: the field is the `length` bytes from line[start] on; an empty field has length 0. */
typedef struct {
    uint64_t number;
    uint64_t start;
    uint64_t length;
} iolwarch_place;

/* How far a month file has come: what goes from part to part. iolwarch_file_begin makes the first; keep the one that a
 * feed hands back, and change nothing in it. In a stage other than those named a field has any value. */
typedef struct {
    uint64_t stage;       /* 0 the first line is due, 1 P and H lines, 2 G lines, 3 refused */
    uint64_t length;      /* 0 to 2: bytes of the line that has begun */
    uint64_t count;       /* lines read; 3: up to the one that was refused */
    uint64_t plants;      /* 1: P, H and TEO of the first line */
    uint64_t periods;
    uint64_t tariff;
    uint64_t rows;        /* 1: P lines taken */
    uint64_t figures;     /* 1: H lines taken */
    iolwarch_month month; /* 2: the open month */
    uint64_t number;      /* 3: of the refusal */
} iolwarch_file;

/* The answer of a feed. */
typedef struct {
    uint64_t number;
    iolwarch_file file;
} iolwarch_fed;

/* The answer of a finish: how many bytes of the text were written. */
typedef struct {
    uint64_t number;
    uint64_t length;
} iolwarch_finished;

/* The ledger is two lists, row by row: `allotted`, four kWh figures a plant, one for each submarket; `accounts`, two
 * signed figures a plant, net kWh before money in thousandths of a centavo. For P plants they have 4P and 2P figures.
 */

/* Opens a month: the ledger is set to zeros, and period 1 is due. A closed month may be opened over.
 *
 * Takes    a month that is not open; P plants; the profile, the pool's whole generation in each of H periods; the
 *          tariff TEO; the ledger's lists, of 4P and 2P figures with any content.
 * Answers  0 and the open month, or 1 to 11 and the month as it came.
 * Leaves   with 0 the ledger all zeros; otherwise as it was. Plants and profile are only read.
 */
iolwarch_end iolwarch_open(iolwarch_month month,
                           const iolwarch_plant *plants, size_t plants_length,
                           const uint64_t *profile, size_t profile_length,
                           uint64_t tariff,
                           uint64_t *allotted, size_t allotted_length,
                           int64_t *accounts, size_t accounts_length);

/* Settles the period due: each plant's kWh are allotted over the four submarkets, and its net and its money posted.
 *
 * Takes    an open month; plants and profile again, as many as the month has (a plant is its row, in the submarket
 *          that this table gives it); P metered figures, which add up to the profile's figure for the period due; an
 *          allotment list of 4P figures; the ledger's lists.
 * Answers  0, the month with the next period due, Z, A and both tables, or 2 to 19, the month as it came and zeros.
 *          The questions are put in this order: 12, 2 to 4, 13, 5 to 8 row by row, 9 to 11, 14 to 19.
 * Leaves   with 0 the hour's figures in the allotment list, four a plant, and the ledger with these, the nets and net x
 *          TEO added; otherwise all three lists as they were. Plants, profile and metered figures are only read.
 */
iolwarch_settled iolwarch_settle(iolwarch_month month,
                                 const iolwarch_plant *plants, size_t plants_length,
                                 const uint64_t *profile, size_t profile_length,
                                 const uint64_t *metered, size_t metered_length,
                                 uint64_t *allotment, size_t allotment_length,
                                 uint64_t *allotted, size_t allotted_length,
                                 int64_t *accounts, size_t accounts_length);

/* Sums the ledger. After any list of calls from a blank month the two signed sums are zero, if these calls alone have
 * written to the ledger.
 *
 * Takes    a month that is not blank, and the ledger's lists.
 * Answers  0, the month as it came and the sums, or 21, 2, 11 or 19.
 * Leaves   the ledger as it was: it is only read.
 */
iolwarch_sums iolwarch_balance(iolwarch_month month,
                               const uint64_t *allotted, size_t allotted_length,
                               const int64_t *accounts, size_t accounts_length);

/* Ends the month once its last period is settled.
 *
 * Takes    an open month.
 * Answers  0 and the closed month, or 12, 3 or 20 and the month as it came.
 * Leaves   nothing changed: it has no list.
 */
iolwarch_end iolwarch_close(iolwarch_month month);

/* Writes the statement of a month, open or closed: a line for each plant, then the line of the sums, each with its end
 * byte 10.
 *
 *     A,submarket,number,s1,s2,s3,s4,net,money      one for each row: its kWh in each submarket, net kWh, money
 *     T,periods settled,P,S1,S2,S3,S4,S             the column sums, and S, the sum of them
 *
 * Takes    a month that is not blank; plants again, as many as the month has; the ledger's lists; at least 128P + 128
 *          bytes for the statement.
 * Answers  0, the month as it came and the statement's length, or 21, 2, 3, 13, 14, 5 to 8 row by row, 11, 19 or 22 (put
 *          in this order), the month as it came and 0.
 * Leaves   with 0 the statement at the front of the bytes and the rest of them as they were; otherwise all of them as
 *          they were. Plants and ledger are only read.
 */
iolwarch_stated iolwarch_statement(iolwarch_month month,
                                   const iolwarch_plant *plants, size_t plants_length,
                                   const uint64_t *allotted, size_t allotted_length,
                                   const int64_t *accounts, size_t accounts_length,
                                   uint8_t *bytes, size_t bytes_length);

/* Sizes a statement: it has at most so many bytes. Lend statement 128P + 128 bytes all the same, and not the size
 * answered: 22 asks for as many even where the statement is shorter.
 *
 * Takes    what statement takes, without the bytes.
 * Answers  0, the month as it came and a size between the statement's length and 128P + 128, or a number as for
 *          statement, but never 22, the month as it came and 0.
 * Leaves   nothing changed: plants and ledger are only read.
 */
iolwarch_sized iolwarch_statement_size(iolwarch_month month,
                                       const iolwarch_plant *plants, size_t plants_length,
                                       const uint64_t *allotted, size_t allotted_length,
                                       const int64_t *accounts, size_t accounts_length);

/* Reads a line of a month file, its end byte 10 removed.
 *
 * Takes    the line's bytes, any bytes, and a list for its figures.
 * Answers  0, the line's start and its number of fields, or 26 to 30 and zeros.
 * Leaves   with 0 the figures at the front of the list and the rest of it as it was; otherwise the whole list as it
 *          was. The line is only read.
 */
iolwarch_line iolwarch_read_line(const uint8_t *line, size_t line_length,
                                 uint64_t *figures, size_t figures_length);

/* Finds a field of a line: fields are parted by commas and counted from 0 at the line's first byte.
 *
 * Takes    the line's bytes, any bytes, and the field's index.
 * Answers  0 and where the field starts and how long it is, or 26 or 28 and zeros.
 * Leaves   the line as it was: it is only read.
 */
iolwarch_place iolwarch_field(const uint8_t *line, size_t line_length, uint64_t index);

/* A month file, in parts of any size: begin once for each file, feed each part as it comes, finish after the last. The
 * lists are the caller's, and hold what was read from call to call: lend the same ones each time, and leave them alone
 * in between. Any content will do at the start. iolwarch_workspace, below, has them all.
 *
 *     line                         8,192 bytes   the line that has begun
 *     columns                      2,560         the plant table
 *     profile                        744         the profile
 *     allotted                     2,048         the ledger
 *     accounts                     1,024
 *     text                        65,664 bytes   for finish: the statement, or the refusal
 *
 * The plant table lies in IOLWARCH_COLUMNS figures, column by column in the order of a P line (submarket, number,
 * guarantee, loss, availability): IOLWARCH_PLANTS places for each column, of which the rows that were read take the
 * first.
 *
 * Longer lists will do; keep nothing of your own behind what is used: a feed may write there. Each call looks over the
 * table and the ledger that are kept, so few long parts are cheaper than many short ones. */

/* Begins a file.
 *
 * Takes    nothing.
 * Answers  the state before the first byte. It is never refused, so there is no number.
 * Leaves   nothing changed: it has no list.
 */
iolwarch_file iolwarch_file_begin(void);

/* Feeds the next part of the file, of any length, 0 too, cut anywhere.
 *
 * Takes    the state that begin or the last feed answered, the part, and the lists as they were left.
 * Answers  0 and the next state; or 30, a list is too short; or 31, state and lists do not fit together; the state is
 *          then as it came. A file that is refused is still fed, and 0 answered: finish writes its refusal, and no
 *          part after it matters. 31 is never answered where begin made the state and feeds alone have changed state and
 *          lists.
 * Leaves   with 0 the lists as the next call needs them; what lies past the line, the rows and the figures in use has
 *          any content. Otherwise all of them as they were. The part is only read.
 */
iolwarch_fed iolwarch_file_feed(iolwarch_file file,
                                const uint8_t *part, size_t part_length,
                                uint8_t *line, size_t line_length,
                                uint64_t *columns, size_t columns_length,
                                uint64_t *profile, size_t profile_length,
                                uint64_t *allotted, size_t allotted_length,
                                int64_t *accounts, size_t accounts_length);

/* Ends the file: the month is closed and its statement written, or the refusal, `R,line,number` and a byte 10.
 *
 * Takes    the state that the last feed answered, the lists as it left them, and at least 65,664 bytes for the text.
 * Answers  0 and how many bytes were written; or 30, a list is too short, 22, the text is, or 31, as for feed (put in
 *          this order), and 0.
 * Leaves   with 0 what is printed at the front of the text and the rest of it as it was; otherwise the whole text as it
 *          was. The other lists are only read, and the state stays the caller's, so a file may be finished again, or
 *          fed on after a finish that looked at how far it has come.
 */
iolwarch_finished iolwarch_file_finish(iolwarch_file file,
                                       const uint8_t *line, size_t line_length,
                                       const uint64_t *columns, size_t columns_length,
                                       const uint64_t *profile, size_t profile_length,
                                       const uint64_t *allotted, size_t allotted_length,
                                       const int64_t *accounts, size_t accounts_length,
                                       uint8_t *text, size_t text_length);

/* Everything that a month file needs, for a month at the limits and so for any: 124,976 bytes, so make it static. */
typedef struct {
    iolwarch_file file;
    uint8_t line[IOLWARCH_LINE];
    uint64_t columns[IOLWARCH_COLUMNS];
    uint64_t profile[IOLWARCH_PERIODS];
    uint64_t allotted[4 * IOLWARCH_PLANTS];
    int64_t accounts[2 * IOLWARCH_PLANTS];
    uint8_t text[128 * IOLWARCH_PLANTS + 128];
} iolwarch_workspace;

/* Before the first byte of each file: the workspace may have any content. */
static inline void iolwarch_workspace_begin(iolwarch_workspace *w)
{
    w->file = iolwarch_file_begin();
}

/* The next part. Answers the feed's number. */
static inline uint64_t iolwarch_workspace_feed(iolwarch_workspace *w, const uint8_t *part, size_t length)
{
    iolwarch_fed fed = iolwarch_file_feed(w->file, part, length, w->line, sizeof w->line, w->columns, IOLWARCH_COLUMNS,
                                          w->profile, IOLWARCH_PERIODS, w->allotted, 4 * IOLWARCH_PLANTS,
                                          w->accounts, 2 * IOLWARCH_PLANTS);
    w->file = fed.file;
    return fed.number;
}

/* After the last part: answers the finish's number and how many bytes of w->text are the file's output. */
static inline iolwarch_finished iolwarch_workspace_finish(iolwarch_workspace *w)
{
    return iolwarch_file_finish(w->file, w->line, sizeof w->line, w->columns, IOLWARCH_COLUMNS, w->profile,
                                IOLWARCH_PERIODS, w->allotted, 4 * IOLWARCH_PLANTS, w->accounts, 2 * IOLWARCH_PLANTS,
                                w->text, sizeof w->text);
}

/* Shares a total over weights: the i-th part is floor(total x Ci / W) - floor(total x C(i-1) / W), where Ci is the sum
 * of the first i weights and W of all. The parts add up to the total; when the total is at most W, no part exceeds
 * its weight. A total of 0 gives zeros.
 *
 * Takes    the total, the weights, and a list for the parts.
 * Answers  0, 24 or 25.
 * Leaves   with 0 each part in its place in the second list; otherwise that list as it was. The weights are only read.
 */
uint64_t iolwarch_share(uint64_t total,
                        const uint64_t *weights, size_t weights_length,
                        uint64_t *parts, size_t parts_length);

/* The transfer step: needy submarkets are served in order 1 to 4, each one's need shared over what the four still
 * have left, which then falls. Each receiver's column of the table adds up to its need, no giver's row passes what it
 * had left, and no submarket gives to itself.
 *
 * Takes    what each submarket has left, and what each needs, both by value.
 * Answers  0 and the table, or 23 and zeros.
 * Leaves   nothing changed: it has no list.
 */
iolwarch_transferred iolwarch_transfer(iolwarch_by_submarket left, iolwarch_by_submarket need);

#ifdef __cplusplus
}
#endif

#endif
