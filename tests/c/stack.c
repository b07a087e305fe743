/* How much stack each call of include/iolwarch.h takes at the limits: 512 plants, 744 periods, lines of 8,192 bytes. It
 * prints a line for each call, and holds it to IOLWARCH_STACK.
 *
 * A call is run on a stack of its own that is filled with one byte; the lowest byte that changed tells how far down it
 * went. What the change of stacks takes is counted too ('nothing'). Everything is run over two fillings, since a byte
 * that a call writes may be the filling. */
#define _XOPEN_SOURCE 700
#include <inttypes.h>
#include <stdio.h>
#include <string.h>
#include <ucontext.h>

#include "check.h"
#include "iolwarch.h"

#define STACK 524288

/* ---- the stack of its own */

static union {
    long double aligned;
    uint8_t bytes[STACK];
} stack;
static ucontext_t here, there;

static void run(void (*call)(void))
{
    getcontext(&there);
    there.uc_stack.ss_sp = stack.bytes;
    there.uc_stack.ss_size = STACK;
    there.uc_link = &here;
    makecontext(&there, call, 0);
    swapcontext(&here, &there);
}

static size_t used(uint8_t filling)
{
    size_t at = 0;
    while (at < STACK && stack.bytes[at] == filling) {
        at++;
    }
    return STACK - at;
}

/* What the calls answered that should have answered 0. */
static uint64_t refused;

/* Runs a call for each step, `prepare` before it on the ordinary stack, and holds what was used to the figure. */
static void measure(const char *name, size_t steps, void (*prepare)(size_t), void (*call)(void))
{
    const uint8_t fillings[2] = {0x5a, 0xa5};
    size_t most = 0;
    size_t i, step;
    refused = 0;
    for (i = 0; i < 2; i++) {
        memset(stack.bytes, fillings[i], STACK);
        for (step = 0; step < steps; step++) {
            prepare(step);
            run(call);
        }
        most = used(fillings[i]) > most ? used(fillings[i]) : most;
    }
    printf("%8zu bytes  %s\n", most, name);
    check(most <= IOLWARCH_STACK, name);
    check(refused == 0, name);
}

static void as_it_is(size_t step)
{
    (void)step;
}

static void nothing(void)
{
}

/* ---- a month at the limits */

static iolwarch_plant plants[IOLWARCH_PLANTS];
static uint64_t profile[IOLWARCH_PERIODS];
static uint64_t metered[IOLWARCH_PLANTS];
static uint64_t allotment[4 * IOLWARCH_PLANTS];
static uint64_t allotted[4 * IOLWARCH_PLANTS];
static int64_t accounts[2 * IOLWARCH_PLANTS];
static uint8_t bytes[128 * IOLWARCH_PLANTS + 128];
static iolwarch_month month;
static uint64_t seed = 1;

static uint64_t below(uint64_t limit)
{
    seed = seed * UINT64_C(6364136223846793005) + UINT64_C(1442695040888963407);
    return (seed >> 33) % limit;
}

/* Guarantees of 0 to 6 million kWh an hour, 1.5 thousand million in all, and a profile of 1 to 2 thousand million:
 * there are hours with a secondary and hours without. */
static void make_tables(void)
{
    size_t i;
    for (i = 0; i < IOLWARCH_PLANTS; i++) {
        plants[i].submarket = 1 + i / 128;
        plants[i].number = 1 + i;
        plants[i].guarantee = UINT64_C(744000000) * (i % 7);
        plants[i].loss = 1000000 - i;
        plants[i].availability = 999000 + i;
    }
    for (i = 0; i < IOLWARCH_PERIODS; i++) {
        profile[i] = UINT64_C(1000000000) + i * 1343000;
    }
}

/* The profile's figure for a period, parted over the plants anyhow. */
static void meter(size_t period)
{
    uint64_t rest = profile[period];
    size_t i;
    for (i = 0; i + 1 < IOLWARCH_PLANTS; i++) {
        metered[i] = below(2 * rest / (IOLWARCH_PLANTS - i) + 1);
        rest -= metered[i];
    }
    metered[IOLWARCH_PLANTS - 1] = rest;
}

static void open_month(void)
{
    const iolwarch_month blank = {0, 0, 0, 0, 0};
    iolwarch_end end = iolwarch_open(blank, plants, IOLWARCH_PLANTS, profile, IOLWARCH_PERIODS, 10000, allotted,
                                     4 * IOLWARCH_PLANTS, accounts, 2 * IOLWARCH_PLANTS);
    month = end.month;
    refused |= end.number;
}

static void prepare_hour(size_t period)
{
    if (period == 0) {
        open_month();
    }
    meter(period);
}

static void settle_hour(void)
{
    iolwarch_settled settled =
        iolwarch_settle(month, plants, IOLWARCH_PLANTS, profile, IOLWARCH_PERIODS, metered, IOLWARCH_PLANTS, allotment,
                        4 * IOLWARCH_PLANTS, allotted, 4 * IOLWARCH_PLANTS, accounts, 2 * IOLWARCH_PLANTS);
    month = settled.month;
    refused |= settled.number;
}

static void balance(void)
{
    refused |= iolwarch_balance(month, allotted, 4 * IOLWARCH_PLANTS, accounts, 2 * IOLWARCH_PLANTS).number;
}

static void close_month(void)
{
    refused |= iolwarch_close(month).number;
}

static void write_statement(void)
{
    refused |= iolwarch_statement(month, plants, IOLWARCH_PLANTS, allotted, 4 * IOLWARCH_PLANTS, accounts,
                                  2 * IOLWARCH_PLANTS, bytes, sizeof bytes)
                   .number;
}

static void size_statement(void)
{
    refused |= iolwarch_statement_size(month, plants, IOLWARCH_PLANTS, allotted, 4 * IOLWARCH_PLANTS, accounts,
                                       2 * IOLWARCH_PLANTS)
                   .number;
}

/* ---- sharing and the transfer step, with products past 64 bits */

static uint64_t weights[IOLWARCH_PERIODS];
static uint64_t parts[IOLWARCH_PERIODS];

static void share(void)
{
    refused |= iolwarch_share((UINT64_C(1) << 62) - 1, weights, IOLWARCH_PERIODS, parts, IOLWARCH_PERIODS);
}

static void transfer(void)
{
    const iolwarch_by_submarket left = {{UINT64_C(2000000000), UINT64_C(1999999999), 0, 0}};
    const iolwarch_by_submarket need = {{0, 0, UINT64_C(1999999998), UINT64_C(2000000000)}};
    refused |= iolwarch_transfer(left, need).number;
}

/* ---- lines and files */

static iolwarch_workspace work;
static char text[IOLWARCH_LINE + 2];
static size_t text_length;
static uint64_t figures[IOLWARCH_PLANTS + 1];

/* A G line of 8,192 bytes, its end byte 10 left out: 513 fields, of 14 or 15 digits but for the first. */
static void longest_line(size_t step)
{
    size_t i;
    (void)step;
    text_length = (size_t)sprintf(text, "G,744");
    for (i = 0; i < IOLWARCH_PLANTS; i++) {
        text_length += (size_t)sprintf(text + text_length, i < 507 ? ",100000000000000" : ",10000000000000");
    }
}

static void read_line(void)
{
    refused |= iolwarch_read_line((const uint8_t *)text, text_length, figures, IOLWARCH_PLANTS + 1).number;
}

static void find_field(void)
{
    refused |= iolwarch_field((const uint8_t *)text, text_length, IOLWARCH_PLANTS + 1).number;
}

static void begin(void)
{
    iolwarch_workspace_begin(&work);
}

static void feed(void)
{
    refused |= iolwarch_workspace_feed(&work, (const uint8_t *)text, text_length);
}

static void finish(void)
{
    refused |= iolwarch_workspace_finish(&work).number;
}

/* The lines of the month's file. */
static void prepare_line(size_t step)
{
    size_t i;
    if (step == 0) {
        begin();
        text_length = (size_t)sprintf(text, "MRE,1,%d,%d,10000\n", IOLWARCH_PERIODS, IOLWARCH_PLANTS);
    } else if (step <= IOLWARCH_PLANTS) {
        const iolwarch_plant *p = &plants[step - 1];
        text_length = (size_t)sprintf(text, "P,%" PRIu64 ",%" PRIu64 ",%" PRIu64 ",%" PRIu64 ",%" PRIu64 "\n",
                                      p->submarket, p->number, p->guarantee, p->loss, p->availability);
    } else if (step <= IOLWARCH_PLANTS + IOLWARCH_PERIODS) {
        text_length = (size_t)sprintf(text, "H,%zu,%" PRIu64 "\n", step - IOLWARCH_PLANTS,
                                      profile[step - IOLWARCH_PLANTS - 1]);
    } else {
        meter(step - IOLWARCH_PLANTS - IOLWARCH_PERIODS - 1);
        text_length = (size_t)sprintf(text, "G,%zu", step - IOLWARCH_PLANTS - IOLWARCH_PERIODS);
        for (i = 0; i < IOLWARCH_PLANTS; i++) {
            text_length += (size_t)sprintf(text + text_length, ",%" PRIu64, metered[i]);
        }
        text[text_length++] = '\n';
    }
}

/* A file of that one line, so that it is read and then refused; and one that ends inside it. */
static void refused_line(size_t step)
{
    longest_line(step);
    text[text_length++] = '\n';
    begin();
}

static void unended_line(size_t step)
{
    longest_line(step);
    begin();
    feed();
}

int main(void)
{
    size_t i;
    make_tables();
    for (i = 0; i < IOLWARCH_PERIODS; i++) {
        weights[i] = UINT64_C(6190000000000000) + i;
    }
    printf("IOLWARCH_STACK is %d bytes\n", IOLWARCH_STACK);
    measure("nothing", 1, as_it_is, nothing);
    measure("share", 1, as_it_is, share);
    measure("transfer", 1, as_it_is, transfer);
    measure("open", 1, as_it_is, open_month);
    measure("settle, a whole month", IOLWARCH_PERIODS, prepare_hour, settle_hour);
    measure("balance", 1, as_it_is, balance);
    measure("close", 1, as_it_is, close_month);
    measure("statement", 1, as_it_is, write_statement);
    measure("statement_size", 1, as_it_is, size_statement);
    measure("read_line", 1, longest_line, read_line);
    check(text_length == IOLWARCH_LINE, "a line of 8,192 bytes");
    measure("field", 1, longest_line, find_field);
    measure("file_begin", 1, as_it_is, begin);
    measure("file_feed, a whole file", 1 + IOLWARCH_PLANTS + 2 * IOLWARCH_PERIODS, prepare_line, feed);
    measure("file_finish, its statement", 1, as_it_is, finish);
    check(work.text[0] == 'A', "the file was settled");
    measure("file_feed, a line refused", 1, refused_line, feed);
    measure("file_finish, a line cut off", 1, unended_line, finish);
    return counted();
}
