/* Settles a month file through the library, line by line and in constant memory:
 *
 *   (cd crates/recorder && rt lib)
 *   cc -Iinclude examples/c/month.c crates/recorder/out/librecorder.a -o month
 *   ./month < examples/month.mre
 *
 * It prints the statement, or `R,line,number` where the file is refused: `number` is the question that was answered no
 * (include/iolwarch.h has the list), `line` the line just read. The exit status is then 1; so it is, with a line on
 * standard error, where the input cannot be read or the output not written. The order of the lines (31) and the limits
 * of the first (2 to 4) are asked here, every other question by the library. */
#include <inttypes.h>
#include <stdio.h>

#include "iolwarch.h"

/* The first line's figures; the P and H lines taken so far; the month, blank until the last H line is taken. */
static uint64_t periods, plants, tariff;
static size_t rows, hours;
static iolwarch_month month;

static iolwarch_plant table[IOLWARCH_PLANTS];
static uint64_t profile[IOLWARCH_PERIODS];
static uint64_t allotment[4 * IOLWARCH_PLANTS];
static uint64_t allotted[4 * IOLWARCH_PLANTS];
static int64_t accounts[2 * IOLWARCH_PLANTS];
static uint8_t statement[128 * IOLWARCH_PLANTS + 128];

/* Fills `line` up to a byte 10, the file's end or a read error (both EOF), or one byte more than a line may have.
 * Answers how many bytes it took, and in `last` what stopped it. */
static size_t next_line(uint8_t line[IOLWARCH_LINE + 1], int *last)
{
    size_t length = 0;
    while (length <= IOLWARCH_LINE && (*last = getchar()) != EOF && *last != '\n') {
        line[length++] = (uint8_t)*last;
    }
    return length;
}

/* 31: the first line, then a P line for each plant, then H and G lines by rising period. */
static int in_turn(uint64_t start, uint64_t period)
{
    if (plants == 0) {
        return start == 1;
    }
    if (rows < plants) {
        return start == 2;
    }
    if (hours < periods) {
        return start == 3 && period == hours + 1;
    }
    return start == 4 && period == month.due && month.due <= periods;
}

static uint64_t begin(const uint64_t *figures)
{
    if (figures[1] < 1 || figures[1] > IOLWARCH_PLANTS) {
        return 2;
    }
    if (figures[0] < 1 || figures[0] > IOLWARCH_PERIODS) {
        return 3;
    }
    if (figures[2] > 10000) {
        return 4;
    }
    periods = figures[0];
    plants = figures[1];
    tariff = figures[2];
    return 0;
}

static uint64_t open_month(void)
{
    iolwarch_end end =
        iolwarch_open(month, table, rows, profile, hours, tariff, allotted, 4 * rows, accounts, 2 * rows);
    month = end.month;
    return end.number;
}

static uint64_t settle_hour(const uint64_t *metered, size_t length)
{
    iolwarch_settled settled = iolwarch_settle(month, table, rows, profile, hours, metered, length, allotment, 4 * rows,
                                               allotted, 4 * rows, accounts, 2 * rows);
    month = settled.month;
    return settled.number;
}

/* Takes a line. Answers 0, or the number with which it is refused. */
static uint64_t take(const uint8_t *bytes, size_t length, int ended)
{
    uint64_t figures[IOLWARCH_PLANTS + 1];
    iolwarch_line line = iolwarch_read_line(bytes, length, figures, IOLWARCH_PLANTS + 1);
    if (line.number != 0) {
        return line.number;
    }
    if (!ended || !in_turn(line.start, figures[0])) {
        return 31;
    }
    switch (line.start) {
    case 1:
        return begin(figures);
    case 2:
        table[rows++] = (iolwarch_plant){figures[0], figures[1], figures[2], figures[3], figures[4]};
        return 0;
    case 3:
        profile[hours++] = figures[1];
        return hours < periods ? 0 : open_month();
    default:
        return settle_hour(figures + 1, line.fields - 1);
    }
}

/* Makes the statement after close, and answers 0; or answers 31, where the file ends early. */
static uint64_t finish(size_t *length)
{
    iolwarch_end end = iolwarch_close(month);
    iolwarch_stated stated;
    if (end.number != 0) {
        return 31;
    }
    stated = iolwarch_statement(end.month, table, rows, allotted, 4 * rows, accounts, 2 * rows, statement,
                                sizeof statement);
    *length = stated.length;
    return stated.number;
}

/* Prints the refusal, or the statement. Answers whether all of it was written: fflush tells. */
static int print(uint64_t line, uint64_t number, size_t length)
{
    if (number != 0) {
        return printf("R,%" PRIu64 ",%" PRIu64 "\n", line, number) > 0 && fflush(stdout) == 0;
    }
    return fwrite(statement, 1, length, stdout) == length && fflush(stdout) == 0;
}

static int fail(const char *what)
{
    fprintf(stderr, "month: %s\n", what);
    return 1;
}

int main(void)
{
    uint8_t line[IOLWARCH_LINE + 1];
    uint64_t count = 0;
    uint64_t number;
    size_t stated = 0;
    int last;
    do {
        size_t length = next_line(line, &last);
        if (ferror(stdin)) {
            return fail("standard input cannot be read");
        }
        count++;
        number = length == 0 && last == EOF ? finish(&stated) : take(line, length, last == '\n');
    } while (number == 0 && last != EOF);
    if (!print(count, number, stated)) {
        return fail("standard output cannot be written");
    }
    return number == 0 ? 0 : 1;
}
