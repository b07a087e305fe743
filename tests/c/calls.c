/* Every call of include/iolwarch.h once from C, refused and accepted, with answers worked by hand from document 01; and
 * each field of its structs by name, with values that tell it from the fields beside it. */
#include <stdio.h>
#include <string.h>

#include "check.h"
#include "iolwarch.h"

#define LIMIT (UINT64_C(1) << 62)
#define HOUR UINT64_C(2000000000)
#define MOST 4

/* One sharing: the lent list begins with 901, 902, .. and has one more figure behind it, which must stay. */
static void share(const char *what, uint64_t total, const uint64_t *weights, size_t weights_length,
                  size_t parts_length, uint64_t number, const uint64_t *wanted)
{
    uint64_t parts[MOST + 1];
    uint64_t expected[MOST + 1];
    size_t i;
    for (i = 0; i <= MOST; i++) {
        parts[i] = 901 + i;
        expected[i] = number == 0 && i < parts_length ? wanted[i] : 901 + i;
    }
    check(iolwarch_share(total, weights, weights_length, parts, parts_length) == number, what);
    check(memcmp(parts, expected, sizeof parts) == 0, what);
}

static void sharing(void)
{
    const uint64_t three[MOST] = {1, 1, 1, 0};
    const uint64_t plants[MOST] = {100, 50, 60, 0};
    const uint64_t none[MOST] = {0, 0, 0, 0};
    const uint64_t limit[MOST] = {LIMIT - 1, 1, 0, 0};
    const uint64_t wraps[MOST] = {UINT64_MAX, 2, 0, 0};
    share("m3", 100, three, 3, 3, 0, (const uint64_t[]){33, 33, 34});
    share("m1, covered guarantees", 180, plants, 3, 3, 0, (const uint64_t[]){85, 43, 52});
    share("m2, rights to secondary", 30, plants, 3, 3, 0, (const uint64_t[]){14, 7, 9});
    share("m7, nothing over nothing", 0, none, 2, 2, 0, none);
    share("m8, 1 over 0", 1, none, 1, 1, 25, NULL);
    share("nothing over no weights", 0, none, 0, 0, 0, none);
    share("1 over no weights", 1, none, 0, 0, 25, NULL);
    share("a list one too short", 100, three, 3, 2, 24, NULL);
    share("a list one too long", 100, three, 3, 4, 24, NULL);
    share("W at 2^62 - 1", 1, limit, 1, 1, 0, (const uint64_t[]){1});
    share("W at 2^62", 1, limit, 2, 2, 24, NULL);
    share("W past 2^64", 1, wraps, 2, 2, 24, NULL);
    share("T at 2^62 - 1", LIMIT - 1, three, 2, 2, 0, (const uint64_t[]){LIMIT / 2 - 1, LIMIT / 2});
    share("T at 2^62", LIMIT, three, 2, 2, 24, NULL);
}

static void transfer(const char *what, iolwarch_by_submarket left, iolwarch_by_submarket need, iolwarch_transferred wanted)
{
    iolwarch_transferred answer = iolwarch_transfer(left, need);
    check(answer.number == wanted.number, what);
    check(memcmp(&answer.table, &wanted.table, sizeof answer.table) == 0, what);
}

static void transfers(void)
{
    const iolwarch_by_submarket zero = {{0, 0, 0, 0}};
    const iolwarch_transferred nothing = {0, {{{0}}}};
    const iolwarch_transferred refused = {23, {{{0}}}};
    transfer("m6", (iolwarch_by_submarket){{1, 1, 0, 0}}, (iolwarch_by_submarket){{0, 0, 1, 1}},
             (iolwarch_transferred){0, {{{0, 0, 0, 1}, {0, 0, 1, 0}, {0}, {0}}}});
    transfer("two givers, the second left with the rest", (iolwarch_by_submarket){{3, 9, 0, 0}},
             (iolwarch_by_submarket){{0, 0, 10, 2}},
             (iolwarch_transferred){0, {{{0, 0, 2, 1}, {0, 0, 8, 1}, {0}, {0}}}});
    transfer("four kWh figures that differ", (iolwarch_by_submarket){{0, 20, 7, 0}},
             (iolwarch_by_submarket){{10, 0, 0, 8}},
             (iolwarch_transferred){0, {{{0}, {7, 0, 0, 6}, {3, 0, 0, 2}, {0}}}});
    transfer("nothing to send", zero, zero, nothing);
    transfer("left at its limit", (iolwarch_by_submarket){{HOUR, 0, 0, 0}}, (iolwarch_by_submarket){{0, HOUR, 0, 0}},
             (iolwarch_transferred){0, {{{0, HOUR, 0, 0}, {0}, {0}, {0}}}});
    transfer("left past its limit", (iolwarch_by_submarket){{HOUR + 1, 0, 0, 0}}, zero, refused);
    transfer("need past its limit", (iolwarch_by_submarket){{HOUR, HOUR, 0, 0}},
             (iolwarch_by_submarket){{0, 0, HOUR + 1, 0}}, refused);
    transfer("one more needed than left", (iolwarch_by_submarket){{1, 1, 0, 0}},
             (iolwarch_by_submarket){{0, 0, 2, 1}}, refused);
    transfer("a submarket with both", (iolwarch_by_submarket){{5, 1, 0, 0}}, (iolwarch_by_submarket){{0, 1, 0, 0}},
             refused);
}

static const iolwarch_month blank = {0, 0, 0, 0, 0};

static int same_month(iolwarch_month a, iolwarch_month b)
{
    return memcmp(&a, &b, sizeof a) == 0;
}

/* Close and balance of a month; a refusal hands the month back as it came, a stage that is none of the three too. */
static void months(void)
{
    const iolwarch_month due = {1, 1, 1, 1300, 2};
    const iolwarch_month early = {1, 1, 1, 1300, 1};
    const iolwarch_month strange = {7, 1, 1, 1300, 2};
    const uint64_t allotted[4] = {85, 43, 22, 30};
    const int64_t accounts[2] = {45, -58500};
    iolwarch_end end = iolwarch_close(due);
    iolwarch_sums sums;
    check(end.number == 0 && end.month.stage == 2 && end.month.due == 2 && end.month.tariff == 1300, "close");
    end = iolwarch_close(early);
    check(end.number == 20 && same_month(end.month, early), "close with a period to settle");
    end = iolwarch_close(strange);
    check(end.number == 12 && same_month(end.month, strange), "close of a month in no stage");
    sums = iolwarch_balance(due, allotted, 4, accounts, 2);
    check(sums.number == 0 && memcmp(sums.columns, allotted, sizeof allotted) == 0, "balance, columns");
    check(sums.net == 45 && sums.money == -58500 && same_month(sums.month, due), "balance, net and money");
    sums = iolwarch_balance(due, allotted, 3, accounts, 2);
    check(sums.number == 11 && sums.columns[0] == 0 && sums.net == 0 && sums.money == 0, "balance of a short ledger");
    sums = iolwarch_balance(strange, allotted, 4, accounts, 2);
    check(sums.number == 21 && same_month(sums.month, strange), "balance of a blank month");
}

/* The lists of document 01's example month: three plants, one period. Each list that a call writes has one figure more
 * behind it, which must stay. */
#define ROWS 3

typedef struct {
    iolwarch_plant plants[ROWS];
    uint64_t profile[1];
    uint64_t metered[ROWS];
    uint64_t allotment[4 * ROWS + 1];
    uint64_t allotted[4 * ROWS + 1];
    int64_t accounts[2 * ROWS + 1];
} lists;

static lists example(void)
{
    lists l = {{{1, 10, 100, 1000000, 1000000}, {1, 11, 50, 1000000, 1000000}, {2, 20, 60, 1000000, 1000000}},
               {180},
               {130, 20, 30},
               {0},
               {0},
               {0}};
    size_t i;
    for (i = 0; i <= 4 * ROWS; i++) {
        l.allotment[i] = 900 + i;
        l.allotted[i] = 700 + i;
    }
    for (i = 0; i <= 2 * ROWS; i++) {
        l.accounts[i] = -(int64_t)(500 + i);
    }
    return l;
}

static iolwarch_end open_rows(lists *l, iolwarch_month month, size_t rows)
{
    return iolwarch_open(month, l->plants, rows, l->profile, 1, 1300, l->allotted, 4 * ROWS, l->accounts, 2 * ROWS);
}

static iolwarch_settled settle(lists *l, iolwarch_month month)
{
    return iolwarch_settle(month, l->plants, ROWS, l->profile, 1, l->metered, ROWS, l->allotment, 4 * ROWS,
                           l->allotted, 4 * ROWS, l->accounts, 2 * ROWS);
}

static const iolwarch_table none = {{{0}}};

/* What a refused settle answers beside its number: the month as it came, and zeros. */
static int unsettled(iolwarch_settled answer, iolwarch_month month)
{
    return same_month(answer.month, month) && answer.secondary == 0 && answer.guarantees == 0 &&
           memcmp(&answer.cover_table, &none, sizeof none) == 0 &&
           memcmp(&answer.secondary_table, &none, sizeof none) == 0;
}

/* Each field of a month, by its name. */
static void is_month(const char *what, iolwarch_month month, uint64_t stage, uint64_t plants, uint64_t periods,
                     uint64_t tariff, uint64_t due)
{
    check(month.stage == stage, what);
    check(month.plants == plants, what);
    check(month.periods == periods, what);
    check(month.tariff == tariff, what);
    check(month.due == due, what);
}

/* A month of five periods with a tariff of 7: from call to call its fields differ from each other. */
static void month_fields(void)
{
    const uint64_t profile[5] = {180, 180, 180, 180, 180};
    const iolwarch_month closed = {2, 8, 9, 10, 11};
    lists l = example();
    iolwarch_end end =
        iolwarch_open(closed, l.plants, ROWS, profile, 5, 7, l.allotted, 4 * ROWS, l.accounts, 2 * ROWS);
    iolwarch_settled answer = {0, end.month, 0, 0, {{{0}}}, {{{0}}}};
    uint64_t due;
    check(end.number == 0, "five periods opened");
    is_month("the opened month", end.month, 1, 3, 5, 7, 1);
    for (due = 2; due <= 6; due++) {
        answer = iolwarch_settle(answer.month, l.plants, ROWS, profile, 5, l.metered, ROWS, l.allotment, 4 * ROWS,
                                 l.allotted, 4 * ROWS, l.accounts, 2 * ROWS);
        check(answer.number == 0, "a period of five settled");
        is_month("the settled month", answer.month, 1, 3, 5, 7, due);
        end = iolwarch_close(answer.month);
        check(end.number == (due == 6 ? 0 : 20), "closed after the fifth period alone");
        is_month("the month that close hands back", end.month, due == 6 ? 2 : 1, 3, 5, 7, due);
    }
    is_month("the month that balance hands back",
             iolwarch_balance(end.month, l.allotted, 4 * ROWS, l.accounts, 2 * ROWS).month, 2, 3, 5, 7, 6);
}

/* Open and settle refused: the number, the month as it came, and every list as it was. */
static void refusals(void)
{
    const iolwarch_month open = {1, ROWS, 1, 1300, 1};
    const iolwarch_month strange = {7, 8, 9, 10, 11};
    const iolwarch_month settled = {1, ROWS, 1, 1300, 2};
    lists l = example();
    lists before = l;
    iolwarch_end end;
    iolwarch_settled answer;
    end = open_rows(&l, open, ROWS);
    check(end.number == 1 && same_month(end.month, open), "open of an open month");
    end = open_rows(&l, strange, 0);
    check(end.number == 2 && same_month(end.month, strange), "open without plants, of a month in no stage");
    end = open_rows(&l, blank, ROWS - 1);
    check(end.number == 11 && same_month(end.month, blank), "open with a ledger too long");
    answer = settle(&l, blank);
    check(answer.number == 12 && unsettled(answer, blank), "settle of a blank month");
    answer = settle(&l, strange);
    check(answer.number == 12 && unsettled(answer, strange), "settle of a month in no stage");
    answer = settle(&l, settled);
    check(answer.number == 14 && unsettled(answer, settled), "settle with no period due");
    check(memcmp(&l, &before, sizeof l) == 0, "refused: every list as it was");
    l.metered[0]++;
    before = l;
    answer = settle(&l, open);
    check(answer.number == 17 && unsettled(answer, open), "settle of a kWh too many");
    check(memcmp(&l, &before, sizeof l) == 0, "17: every list as it was");
    l.metered[0]--;
    l.allotted[0] = UINT64_C(1488000000001);
    before = l;
    answer = settle(&l, open);
    check(answer.number == 19 && unsettled(answer, open), "settle over a ledger figure past its bound");
    check(memcmp(&l, &before, sizeof l) == 0, "19: every list as it was");
}

/* A month of one plant and one period. */
typedef struct {
    iolwarch_plant plant;
    uint64_t profile[1];
    uint64_t allotted[4];
    int64_t accounts[2];
} single;

static iolwarch_end open_single(single *s)
{
    return iolwarch_open(blank, &s->plant, 1, s->profile, 1, 7, s->allotted, 4, s->accounts, 2);
}

/* Each field of a plant record in its own place. Of 11 kWh, 970,000 and 900,000 millionths leave 10 and then 9; in the
 * other order 9 and then 8. */
static void plant_fields(void)
{
    single s = {{.submarket = 3, .number = 999999, .guarantee = 11, .loss = 970000, .availability = 900000},
                {20},
                {1, 1, 1, 1},
                {1, 1}};
    const uint64_t wanted[4] = {0, 0, 20, 0};
    uint64_t allotment[4] = {0, 0, 0, 0};
    iolwarch_end end = open_single(&s);
    iolwarch_settled answer = iolwarch_settle(end.month, &s.plant, 1, s.profile, 1, s.profile, 1, allotment, 4,
                                              s.allotted, 4, s.accounts, 2);
    check(end.number == 0 && answer.number == 0, "one plant");
    check(answer.guarantees == 9 && answer.secondary == 11, "loss before availability");
    check(memcmp(allotment, wanted, sizeof wanted) == 0, "all in submarket 3");
    s.plant.submarket = 5;
    check(open_single(&s).number == 5, "submarket");
    s.plant.submarket = 4;
    s.plant.number = 1000000;
    check(open_single(&s).number == 6, "number");
    s.plant.number = 1;
    s.plant.guarantee = UINT64_C(1000000000001);
    check(open_single(&s).number == 7, "guarantee");
    s.plant.guarantee = 0;
    s.plant.loss = 1000001;
    check(open_single(&s).number == 8, "loss");
    s.plant.loss = 0;
    s.plant.availability = 1000001;
    check(open_single(&s).number == 8, "availability");
}

/* m1, the example file: opened, settled, balanced, closed; then m2, opened over the closed month and settled. */
static void example_month(void)
{
    const uint64_t m1[4 * ROWS + 1] = {85, 0, 0, 0, 43, 0, 0, 0, 22, 30, 0, 0, 712};
    const int64_t accounts1[2 * ROWS + 1] = {45, 58500, -23, -29900, -22, -28600, -506};
    const uint64_t m2[4 * ROWS + 1] = {114, 0, 0, 0, 57, 0, 0, 0, 29, 40, 0, 0, 912};
    const int64_t accounts2[2 * ROWS + 1] = {86, 111800, -57, -74100, -29, -37700, -506};
    const uint64_t columns[4] = {150, 30, 0, 0};
    iolwarch_table sent = none;
    lists l = example();
    size_t i;
    iolwarch_end end = open_rows(&l, blank, ROWS);
    iolwarch_settled answer;
    iolwarch_sums sums;
    check(end.number == 0 && same_month(end.month, (iolwarch_month){1, ROWS, 1, 1300, 1}), "m1 opened");
    for (i = 0; i < 4 * ROWS; i++) {
        check(l.allotted[i] == 0, "m1 opened: no kWh allotted");
    }
    for (i = 0; i < 2 * ROWS; i++) {
        check(l.accounts[i] == 0, "m1 opened: no net, no money");
    }
    check(l.allotted[4 * ROWS] == 712 && l.accounts[2 * ROWS] == -506, "m1 opened: behind the lists");

    answer = settle(&l, end.month);
    check(answer.number == 0 && same_month(answer.month, (iolwarch_month){1, ROWS, 1, 1300, 2}), "m1 settled");
    check(answer.secondary == 0 && answer.guarantees == 210, "m1: Z and A");
    sent.rows[0][1] = 22;
    check(memcmp(&answer.cover_table, &sent, sizeof sent) == 0, "m1: submarket 1 gives 22 to 2 as cover");
    check(memcmp(&answer.secondary_table, &none, sizeof none) == 0, "m1: nothing secondary is given");
    check(memcmp(l.allotment, m1, 4 * ROWS * sizeof m1[0]) == 0 && l.allotment[4 * ROWS] == 912, "m1: allotment");
    check(memcmp(l.allotted, m1, sizeof m1) == 0, "m1: ledger");
    check(memcmp(l.accounts, accounts1, sizeof accounts1) == 0, "m1: nets and money");

    sums = iolwarch_balance(answer.month, l.allotted, 4 * ROWS, l.accounts, 2 * ROWS);
    check(sums.number == 0 && same_month(sums.month, answer.month), "m1 balanced");
    check(memcmp(sums.columns, columns, sizeof columns) == 0 && sums.net == 0 && sums.money == 0, "m1: sums");
    end = iolwarch_close(sums.month);
    check(end.number == 0 && same_month(end.month, (iolwarch_month){2, ROWS, 1, 1300, 2}), "m1 closed");

    l.profile[0] = 240;
    l.metered[0] = 200;
    l.metered[1] = 0;
    l.metered[2] = 40;
    end = open_rows(&l, end.month, ROWS);
    check(end.number == 0 && same_month(end.month, (iolwarch_month){1, ROWS, 1, 1300, 1}), "m2 opened over m1");
    answer = settle(&l, end.month);
    check(answer.number == 0 && answer.secondary == 30 && answer.guarantees == 210, "m2: Z and A");
    sent.rows[0][1] = 20;
    check(memcmp(&answer.cover_table, &sent, sizeof sent) == 0, "m2: submarket 1 gives 20 to 2 as cover");
    sent.rows[0][1] = 9;
    check(memcmp(&answer.secondary_table, &sent, sizeof sent) == 0, "m2: and 9 of the secondary");
    check(memcmp(l.allotment, m2, sizeof m2) == 0, "m2: allotment");
    check(memcmp(l.allotted, m2, 4 * ROWS * sizeof m2[0]) == 0 && l.allotted[4 * ROWS] == 712, "m2: ledger");
    check(memcmp(l.accounts, accounts2, sizeof accounts2) == 0, "m2: nets and money");
}

/* The bytes that a statement of three plants asks for. One more lies behind them, which must stay. */
#define ROOM (128 * ROWS + 128)
#define MANY 513

static iolwarch_stated state(const lists *l, iolwarch_month month, size_t rows, uint8_t *bytes, size_t room)
{
    return iolwarch_statement(month, l->plants, rows, l->allotted, 4 * ROWS, l->accounts, 2 * ROWS, bytes, room);
}

static iolwarch_sized size_of(const lists *l, iolwarch_month month, size_t rows)
{
    return iolwarch_statement_size(month, l->plants, rows, l->allotted, 4 * ROWS, l->accounts, 2 * ROWS);
}

/* Statement and size answer the number, and the month as it came; the text stands at the front of the bytes, which are
 * otherwise as they were, as the lists are. Refused, the text is empty; written, its size is in the range. */
static void states(const char *what, const lists *l, iolwarch_month month, size_t rows, uint64_t number, const char *text)
{
    const size_t length = strlen(text);
    const lists before = *l;
    uint8_t bytes[ROOM + 1];
    uint8_t wanted[ROOM + 1];
    iolwarch_sized sized = size_of(l, month, rows);
    iolwarch_stated stated;
    memset(bytes, 'x', sizeof bytes);
    memset(wanted, 'x', sizeof wanted);
    memcpy(wanted, text, length);
    stated = state(l, month, rows, bytes, ROOM);
    check(stated.number == number && stated.length == length && same_month(stated.month, month), what);
    check(memcmp(bytes, wanted, sizeof bytes) == 0, what);
    check(sized.number == number && same_month(sized.month, month), what);
    check(number == 0 ? length <= sized.size && sized.size <= ROOM : sized.size == 0, what);
    check(memcmp(l, &before, sizeof before) == 0, what);
}

static void written(const char *what, const lists *l, iolwarch_month month, const char *text)
{
    states(what, l, month, ROWS, 0, text);
}

static void unstated(const char *what, const lists *l, iolwarch_month month, size_t rows, uint64_t number)
{
    states(what, l, month, rows, number, "");
}

/* The statement of document 01's example month. */
static const char example_text[] = "A,1,10,85,0,0,0,45,58500\n"
                                   "A,1,11,43,0,0,0,-23,-29900\n"
                                   "A,2,20,22,30,0,0,-22,-28600\n"
                                   "T,1,3,150,30,0,0,180\n";

/* The example month's statement: opened, settled and closed; a byte too few; and refused, whatever is asked first. */
static void statements(void)
{
    static iolwarch_plant many[MANY];
    lists l = example();
    iolwarch_month month = open_rows(&l, blank, ROWS).month;
    uint8_t bytes[ROOM];
    uint8_t wanted[ROOM];
    iolwarch_stated stated;
    written("no period settled", &l, month,
            "A,1,10,0,0,0,0,0,0\nA,1,11,0,0,0,0,0,0\nA,2,20,0,0,0,0,0,0\nT,0,3,0,0,0,0,0\n");
    month = settle(&l, month).month;
    written("statement before close", &l, month, example_text);
    month = iolwarch_close(month).month;
    written("statement after close", &l, month, example_text);

    memset(bytes, 'x', sizeof bytes);
    memset(wanted, 'x', sizeof wanted);
    stated = state(&l, month, ROWS, bytes, ROOM - 1);
    check(stated.number == 22 && stated.length == 0 && same_month(stated.month, month), "a byte too few");
    check(memcmp(bytes, wanted, sizeof bytes) == 0, "22: nothing written");
    stated = iolwarch_statement(month, many, MANY, l.allotted, 4 * ROWS, l.accounts, 2 * ROWS, bytes, ROOM);
    check(stated.number == 13 && stated.length == 0 && same_month(stated.month, month), "513 plants");
    check(memcmp(bytes, wanted, sizeof bytes) == 0, "513 plants: nothing written");

    unstated("statement of a blank month", &l, (iolwarch_month){0, ROWS, 1, 1300, 2}, ROWS, 21);
    unstated("statement of a month in no stage", &l, (iolwarch_month){7, ROWS, 1, 1300, 2}, ROWS, 21);
    unstated("statement of no plants", &l, (iolwarch_month){2, 0, 1, 1300, 2}, 0, 2);
    unstated("statement of 745 periods", &l, (iolwarch_month){2, ROWS, 745, 1300, 2}, ROWS, 3);
    unstated("statement with a plant too few", &l, month, ROWS - 1, 13);
    unstated("statement with period 0 due", &l, (iolwarch_month){2, ROWS, 1, 1300, 0}, ROWS, 14);
    unstated("statement with period H + 2 due", &l, (iolwarch_month){2, ROWS, 1, 1300, 3}, ROWS, 14);
    unstated("statement with a ledger too long", &l, (iolwarch_month){2, ROWS - 1, 1, 1300, 2}, ROWS - 1, 11);
    l.allotted[0] = UINT64_C(1488000000001);
    unstated("statement of a ledger figure past its bound", &l, month, ROWS, 19);
    l.plants[2].loss = 1000001;
    unstated("statement with a loss factor past its limit", &l, month, ROWS, 8);
}

/* Reading a line, and a field by its place. */
static void lines(void)
{
    const uint8_t line[] = "P,1,10,100,970000,900000";
    const size_t length = sizeof line - 1;
    const uint64_t wanted[6] = {1, 10, 100, 970000, 900000, 7};
    uint64_t figures[6] = {7, 7, 7, 7, 7, 7};
    iolwarch_line read = iolwarch_read_line(line, length, figures, 6);
    iolwarch_place place = iolwarch_field(line, length, 3);
    check(read.number == 0 && read.start == 2 && read.fields == 5, "read a P line");
    check(memcmp(figures, wanted, sizeof figures) == 0, "its figures at the front of the list");
    read = iolwarch_read_line(line, length, figures, 4);
    check(read.number == 30 && read.start == 0 && read.fields == 0 && figures[0] == 1, "a list too short");
    check(place.number == 0 && place.start == 7 && place.length == 3, "field 3");
    place = iolwarch_field(line, length, 6);
    check(place.number == 28 && place.start == 0 && place.length == 0, "no such field");
}

/* ---- month files */

static iolwarch_workspace work;
static iolwarch_workspace before;

/* A file of `length` bytes, fed in parts of `size` and finished: what is printed, and nothing behind it. */
static void printed(const char *what, const char *file, size_t size, const char *text)
{
    const size_t length = strlen(file);
    const uint8_t *bytes = (const uint8_t *)file;
    iolwarch_finished end;
    size_t at;
    int good = 1;
    memset(&work, 'x', sizeof work);
    iolwarch_workspace_begin(&work);
    for (at = 0; at < length; at += size) {
        good &= iolwarch_workspace_feed(&work, bytes + at, length - at < size ? length - at : size) == 0;
    }
    check(good, what);
    end = iolwarch_workspace_finish(&work);
    check(end.number == 0 && end.length == strlen(text) && memcmp(work.text, text, end.length) == 0, what);
    check(work.text[end.length] == 'x' && work.text[sizeof work.text - 1] == 'x', what);
}

static void feed(const char *what, const char *part)
{
    check(iolwarch_workspace_feed(&work, (const uint8_t *)part, strlen(part)) == 0, what);
}

/* The fields of a file's state that mean something in stage 1, each by its name. */
static void gathers(const char *what, uint64_t length, uint64_t count, uint64_t rows, uint64_t figures)
{
    check(work.file.stage == 1, what);
    check(work.file.length == length, what);
    check(work.file.count == count, what);
    check(work.file.plants == 5, what);
    check(work.file.periods == 7, what);
    check(work.file.tariff == 1300, what);
    check(work.file.rows == rows, what);
    check(work.file.figures == figures, what);
}

/* A file cut inside a P line, an H line and a G line, and then refused: state and lists by their names. Over the cuts no
 * two fields have the same values. */
static void file_fields(void)
{
    iolwarch_sums sums;
    memset(&work, 'x', sizeof work);
    iolwarch_workspace_begin(&work);
    feed("P lines", "MRE,1,7,5,1300\nP,1,10,100,1000000,1000000\nP,1,11,50,1000000,1000000\nP,2,20,60");
    gathers("inside the third P line", 9, 3, 2, 0);
    check(memcmp(work.line, "P,2,20,60", 9) == 0, "the line that has begun");
    feed("H lines", ",970000,900000\nP,3,30,61,1000000,1000000\nP,4,40,62,1000000,1000000\nH,1,180\nH,2,181\n"
                    "H,3,");
    gathers("inside the third H line", 4, 8, 5, 2);
    check(work.columns[2] == 2 && work.columns[IOLWARCH_PLANTS + 2] == 20, "the third row");
    check(work.columns[2 * IOLWARCH_PLANTS + 2] == 60, "the third row's guarantee");
    check(work.columns[3 * IOLWARCH_PLANTS + 2] == 970000, "the third row's loss");
    check(work.columns[4 * IOLWARCH_PLANTS + 2] == 900000, "the third row's availability");
    feed("G lines", "182\nH,4,183\nH,5,184\nH,6,185\nH,7,186\nG,1,130,20,30,0,0\nG,2,131,20,30,0,0\nG,3,1");
    check(work.file.stage == 2 && work.file.length == 5 && work.file.count == 15, "inside the third G line");
    is_month("the month of the file", work.file.month, 1, 5, 7, 1300, 3);
    check(work.profile[0] == 180 && work.profile[6] == 186, "the profile of the file");
    sums = iolwarch_balance(work.file.month, work.allotted, 20, work.accounts, 10);
    check(sums.number == 0 && sums.columns[0] + sums.columns[1] + sums.columns[2] + sums.columns[3] == 361 &&
              sums.net == 0 && sums.money == 0 && work.accounts[0] != 0 &&
              work.accounts[1] == 1300 * work.accounts[0],
          "the ledger of two hours");
    feed("a G line of one plant", "\n");
    check(work.file.stage == 3 && work.file.count == 16 && work.file.number == 15, "refused at line 16");
    feed("a part after the refusal", "G,3,1\nG");
    check(work.file.stage == 3 && work.file.count == 16 && work.file.number == 15, "refused still");
}

static const uint8_t first_line[] = "MRE,1,1,3,1300\n";

/* Feed and finish refused: the number, and state, lists and text as they were. */
static void unknown(const char *what, uint64_t number)
{
    iolwarch_finished end;
    memcpy(&before, &work, sizeof work);
    check(iolwarch_workspace_feed(&work, first_line, sizeof first_line - 1) == number, what);
    check(memcmp(&before, &work, sizeof work) == 0, what);
    end = iolwarch_workspace_finish(&work);
    check(end.number == number && end.length == 0 && memcmp(&before, &work, sizeof work) == 0, what);
}

/* One list too short, by its place among the six. The last is the text, which feed is not lent. */
static void short_list(const char *what, int list)
{
    size_t n[6] = {IOLWARCH_LINE, IOLWARCH_COLUMNS, IOLWARCH_PERIODS, 4 * IOLWARCH_PLANTS, 2 * IOLWARCH_PLANTS,
                   128 * IOLWARCH_PLANTS + 128};
    iolwarch_fed fed;
    iolwarch_finished end;
    n[list]--;
    memcpy(&before, &work, sizeof work);
    if (list != 5) {
        fed = iolwarch_file_feed(work.file, first_line, sizeof first_line - 1, work.line, n[0], work.columns, n[1],
                                 work.profile, n[2], work.allotted, n[3], work.accounts, n[4]);
        check(fed.number == 30 && memcmp(&fed.file, &work.file, sizeof work.file) == 0, what);
    }
    end = iolwarch_file_finish(work.file, work.line, n[0], work.columns, n[1], work.profile, n[2], work.allotted, n[3],
                               work.accounts, n[4], work.text, n[5]);
    check(end.number == (list == 5 ? 22 : 30) && end.length == 0, what);
    check(memcmp(&before, &work, sizeof work) == 0, what);
}

static void files(void)
{
    static const char file[] = "MRE,1,1,3,1300\nP,1,10,100,1000000,1000000\nP,1,11,50,1000000,1000000\n"
                               "P,2,20,60,1000000,1000000\nH,1,180\nG,1,130,20,30\n";
    int list;
    printed("file in one piece", file, sizeof file - 1, example_text);
    printed("file in pieces of 7", file, 7, example_text);
    printed("file byte by byte", file, 1, example_text);
    printed("no byte at all", "", 1, "R,1,31\n");
    printed("file without its last byte", "MRE,1,1,3,1300", 1, "R,1,31\n");
    printed("a plant number twice", "MRE,1,1,2,0\nP,1,10,0,0,0\nP,1,10,0,0,0\nH,1,1\nG,1,1,0\n", 5, "R,4,6\n");

    memset(&work, 'x', sizeof work);
    work.file.stage = 2;
    unknown("a state of any bytes", 31);
    iolwarch_workspace_begin(&work);
    work.file.count = 1;
    unknown("a first line that is counted already", 31);
    printed("file in one piece", file, sizeof file - 1, example_text);
    work.columns[2] = 5;
    unknown("a row changed between two feeds", 31);
    printed("file in one piece", file, sizeof file - 1, example_text);
    work.accounts[0] = INT64_MIN;
    unknown("a ledger changed between two feeds", 31);
    iolwarch_workspace_begin(&work);
    for (list = 0; list < 6; list++) {
        short_list("a list too short", list);
    }
}

int main(void)
{
    sharing();
    transfers();
    months();
    month_fields();
    refusals();
    plant_fields();
    example_month();
    statements();
    lines();
    files();
    file_fields();
    return counted();
}
