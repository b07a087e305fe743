/* Runs a script of calls through include/iolwarch.h and prints what the second program prints for it at stage 0. The
 * language stands at the head of second/script.rs; lists and calls that come with a request are not known here. A size
 * is printed as it is answered: document 01 leaves it free in a range.
 *
 * The script is read from standard input. What stands around a list must stay in every call. Exit status 1 where it
 * does not, where a line of the script cannot be read, or where a list is longer than the room here. */
#include <inttypes.h>
#include <stdio.h>
#include <stdlib.h>
#include <string.h>

#include "iolwarch.h"

/* The lists; names[] has them in this order. */
enum { PLANTS, PROFILE, METERED, WEIGHTS, ALLOT, KWH, SIGNED, BYTES, LINE, FIGURES, PARTS, LISTS };

#define LONGEST 150000
#define RECORDS 600
#define RECORD_WORDS 7
#define SCRIPT_LINE 1000000
#define AROUND UINT64_C(0xA5A5A5A5A5A5A5A5)
#define BYTE_AROUND '7'

static const char *const names[LISTS] = {"plants", "profile", "metered", "weights", "allot",  "kwh",
                                         "signed", "bytes",   "line",    "figures", "parts"};
/* Each list stands from index 1 on; what is before and behind it is AROUND during a call. */
static uint64_t room[LISTS][LONGEST + 2];
static size_t length[LISTS];
static iolwarch_month month;

/* Plants and bytes as a call takes them, from index 1 on too. */
static iolwarch_plant records[RECORDS + 2];
static uint8_t bytes[LONGEST + 2];

static char line[SCRIPT_LINE + 1];
static size_t line_length;
static size_t line_number = 0;
static char *rest; /* of the line's words */

static void fault(const char *why)
{
    fprintf(stderr, "script line %zu: %s\n", line_number, why);
    exit(1);
}

/* ---- words */

/* The next word of the line, or NULL. */
static char *next_word(void)
{
    char *word;
    while (*rest == ' ') {
        rest++;
    }
    if (*rest == '\0') {
        return NULL;
    }
    word = rest;
    while (*rest != ' ' && *rest != '\0') {
        rest++;
    }
    if (*rest == ' ') {
        *rest++ = '\0';
    }
    return word;
}

static char *needed_word(void)
{
    char *word = next_word();
    if (word == NULL) {
        fault("a word is missing");
    }
    return word;
}

static uint64_t figure(const char *word)
{
    uint64_t value = 0;
    if (*word == '\0') {
        fault("not a figure");
    }
    for (; *word != '\0'; word++) {
        uint64_t digit = (uint64_t)*word - '0';
        if (digit > 9 || value > (UINT64_MAX - digit) / 10) {
            fault("not a figure");
        }
        value = 10 * value + digit;
    }
    return value;
}

static uint64_t next_figure(void)
{
    return figure(needed_word());
}

/* A figure of the list, one below zero in two's complement. */
static uint64_t list_figure(int list, const char *word)
{
    int below = list == SIGNED && *word == '-';
    uint64_t value = figure(word + below);
    if (list == SIGNED && value > (uint64_t)INT64_MAX + (uint64_t)below) {
        fault("not a signed figure");
    }
    return below ? 0 - value : value;
}

/* Edition and rule: 1 is the only one without a request. */
static void only_one(void)
{
    if (strcmp(needed_word(), "1") != 0) {
        fault("edition or rule: 1");
    }
}

/* ---- lists */

static int list_named(const char *name)
{
    int list;
    for (list = 0; list < LISTS; list++) {
        if (strcmp(names[list], name) == 0) {
            return list;
        }
    }
    return LISTS;
}

static int next_list(void)
{
    int list = list_named(needed_word());
    if (list == LISTS) {
        fault("no such list");
    }
    return list;
}

static void add(int list, uint64_t value)
{
    if (length[list] == LONGEST) {
        fault("the list is too long");
    }
    length[list]++;
    room[list][length[list]] = value;
}

static void add_words(int list)
{
    const char *word;
    while ((word = next_word()) != NULL) {
        add(list, list_figure(list, word));
    }
}

static void more(void)
{
    add_words(next_list());
}

static void fill(void)
{
    int list = next_list();
    uint64_t times = next_figure();
    uint64_t value = list_figure(list, needed_word());
    length[list] = 0;
    for (; times > 0; times--) {
        add(list, value);
    }
}

static void poke(void)
{
    int list = next_list();
    uint64_t index = next_figure();
    if (index >= length[list]) {
        fault("past the list's end");
    }
    room[list][index + 1] = list_figure(list, needed_word());
}

static void set_line(const char *text, size_t text_length)
{
    size_t i;
    length[LINE] = 0;
    for (i = 0; i < text_length; i++) {
        add(LINE, (unsigned char)text[i]);
    }
}

static void set_month(void)
{
    month.stage = next_figure();
    month.plants = next_figure();
    month.periods = next_figure();
    month.tariff = next_figure();
    month.due = next_figure();
    only_one();
    next_figure();
}

/* ---- printing */

static void print_figures(const uint64_t *figures, size_t count)
{
    size_t i;
    for (i = 0; i < count; i++) {
        printf(" %" PRIu64, figures[i]);
    }
}

static void print_signed(const int64_t *figures, size_t count)
{
    size_t i;
    for (i = 0; i < count; i++) {
        printf(" %" PRId64, figures[i]);
    }
}

static void print_table(const iolwarch_table *table)
{
    size_t giver;
    for (giver = 0; giver < 4; giver++) {
        print_figures(table->rows[giver], 4);
    }
}

static uint64_t *figures_of(int list)
{
    return room[list] + 1;
}

static int64_t *accounts(void)
{
    return (int64_t *)figures_of(SIGNED);
}

static void show_list(int list)
{
    printf("%s %zu", names[list], length[list]);
    if (list == SIGNED) {
        print_signed(accounts(), length[list]);
    } else {
        print_figures(figures_of(list), length[list]);
    }
    putchar('\n');
}

static void show_month(void)
{
    printf("month %" PRIu64 " %" PRIu64 " %" PRIu64 " %" PRIu64 " %" PRIu64 "\n", month.stage, month.plants,
           month.periods, month.tariff, month.due);
}

static void show_state(void)
{
    show_month();
    show_list(KWH);
    show_list(SIGNED);
}

static void show(void)
{
    const char *name = next_word();
    if (name == NULL) {
        show_state();
    } else if (strcmp(name, "month") == 0) {
        show_month();
    } else if (list_named(name) < LISTS) {
        show_list(list_named(name));
    } else {
        fault("no such list");
    }
}

/* ---- lending: what a call was lent is taken back into the lists, so that `show` prints what stands there now */

static void surround(void)
{
    int list;
    for (list = 0; list < LISTS; list++) {
        room[list][0] = AROUND;
        room[list][length[list] + 1] = AROUND;
    }
}

static void surroundings_stayed(void)
{
    int list;
    for (list = 0; list < LISTS; list++) {
        if (room[list][0] != AROUND || room[list][length[list] + 1] != AROUND) {
            fault("written around a list");
        }
    }
}

static size_t plants_length(void)
{
    return length[PLANTS] / RECORD_WORDS;
}

/* Owner and capacity, the last two words of a record, come with a request. */
static const iolwarch_plant *lend_plants(void)
{
    const iolwarch_plant around = {AROUND, AROUND, AROUND, AROUND, AROUND};
    size_t row;
    if (length[PLANTS] % RECORD_WORDS != 0 || plants_length() > RECORDS) {
        fault("plants: seven words a record, and no more records than the room here");
    }
    for (row = 0; row < plants_length(); row++) {
        const uint64_t *word = figures_of(PLANTS) + RECORD_WORDS * row;
        records[row + 1] = (iolwarch_plant){word[0], word[1], word[2], word[3], word[4]};
    }
    records[0] = around;
    records[plants_length() + 1] = around;
    return records + 1;
}

static int is_around(const iolwarch_plant *plant)
{
    return plant->submarket == AROUND && plant->number == AROUND && plant->guarantee == AROUND &&
           plant->loss == AROUND && plant->availability == AROUND;
}

static void take_plants(void)
{
    size_t row;
    for (row = 0; row < plants_length(); row++) {
        const iolwarch_plant *plant = &records[row + 1];
        uint64_t *word = figures_of(PLANTS) + RECORD_WORDS * row;
        word[0] = plant->submarket;
        word[1] = plant->number;
        word[2] = plant->guarantee;
        word[3] = plant->loss;
        word[4] = plant->availability;
    }
    if (!is_around(&records[0]) || !is_around(&records[plants_length() + 1])) {
        fault("written around the plants");
    }
}

static uint8_t *lend_bytes(int list)
{
    size_t i;
    for (i = 1; i <= length[list]; i++) {
        if (room[list][i] > UINT8_MAX) {
            fault("not a byte");
        }
        bytes[i] = (uint8_t)room[list][i];
    }
    bytes[0] = BYTE_AROUND;
    bytes[length[list] + 1] = BYTE_AROUND;
    return bytes + 1;
}

static void take_bytes(int list)
{
    size_t i;
    for (i = 1; i <= length[list]; i++) {
        room[list][i] = bytes[i];
    }
    if (bytes[0] != BYTE_AROUND || bytes[length[list] + 1] != BYTE_AROUND) {
        fault("written around the bytes");
    }
}

/* ---- calls */

static void call_open(void)
{
    uint64_t tariff = next_figure();
    iolwarch_end end;
    only_one();
    next_figure();
    end = iolwarch_open(month, lend_plants(), plants_length(), figures_of(PROFILE), length[PROFILE], tariff,
                        figures_of(KWH), length[KWH], accounts(), length[SIGNED]);
    take_plants();
    month = end.month;
    printf("open %" PRIu64 "\n", end.number);
}

static void call_settle(void)
{
    iolwarch_settled hour = iolwarch_settle(
        month, lend_plants(), plants_length(), figures_of(PROFILE), length[PROFILE], figures_of(METERED),
        length[METERED], figures_of(ALLOT), length[ALLOT], figures_of(KWH), length[KWH], accounts(), length[SIGNED]);
    take_plants();
    month = hour.month;
    printf("settle %" PRIu64 " %" PRIu64 " %" PRIu64, hour.number, hour.secondary, hour.guarantees);
    print_table(&hour.cover_table);
    print_table(&hour.secondary_table);
    putchar('\n');
}

static void call_balance(void)
{
    iolwarch_sums sums = iolwarch_balance(month, figures_of(KWH), length[KWH], accounts(), length[SIGNED]);
    month = sums.month;
    printf("balance %" PRIu64, sums.number);
    print_figures(sums.columns, 4);
    printf(" %" PRId64 " %" PRId64 "\n", sums.net, sums.money);
}

static void call_close(void)
{
    iolwarch_end end = iolwarch_close(month);
    month = end.month;
    printf("close %" PRIu64 "\n", end.number);
}

static void call_statement(void)
{
    iolwarch_stated stated =
        iolwarch_statement(month, lend_plants(), plants_length(), figures_of(KWH), length[KWH], accounts(),
                           length[SIGNED], lend_bytes(BYTES), length[BYTES]);
    take_plants();
    take_bytes(BYTES);
    month = stated.month;
    printf("statement %" PRIu64 " %" PRIu64 "\n", stated.number, stated.length);
}

static void call_size(void)
{
    iolwarch_sized sized = iolwarch_statement_size(month, lend_plants(), plants_length(), figures_of(KWH),
                                                   length[KWH], accounts(), length[SIGNED]);
    take_plants();
    month = sized.month;
    printf("size %" PRIu64 " %" PRIu64 "\n", sized.number, sized.size);
}

static void call_share(void)
{
    uint64_t total = next_figure();
    only_one();
    printf("share %" PRIu64 "\n", iolwarch_share(total, figures_of(WEIGHTS), length[WEIGHTS], figures_of(PARTS),
                                                 length[PARTS]));
}

static void call_transfer(void)
{
    iolwarch_by_submarket left, need;
    iolwarch_transferred answer;
    size_t i;
    for (i = 0; i < 4; i++) {
        left.kwh[i] = next_figure();
    }
    for (i = 0; i < 4; i++) {
        need.kwh[i] = next_figure();
    }
    only_one();
    answer = iolwarch_transfer(left, need);
    printf("transfer %" PRIu64, answer.number);
    print_table(&answer.table);
    putchar('\n');
}

static void call_read(void)
{
    iolwarch_line answer =
        iolwarch_read_line(lend_bytes(LINE), length[LINE], figures_of(FIGURES), length[FIGURES]);
    take_bytes(LINE);
    printf("read %" PRIu64 " %" PRIu64 " %" PRIu64 "\n", answer.number, answer.start, answer.fields);
}

static void call_field(void)
{
    uint64_t index = next_figure();
    iolwarch_place place = iolwarch_field(lend_bytes(LINE), length[LINE], index);
    take_bytes(LINE);
    if (place.start > length[LINE] || place.length > length[LINE] - place.start) {
        fault("the field is no part of the line");
    }
    printf("field %" PRIu64 " %" PRIu64, place.number, place.length);
    print_figures(figures_of(LINE) + place.start, (size_t)place.length);
    putchar('\n');
}

/* ---- the script */

typedef struct {
    const char *name;
    void (*run)(void);
} statement;

static const statement edits[] = {{"more", more}, {"fill", fill}, {"poke", poke}, {"month", set_month}, {"show", show}};

static const statement calls[] = {
    {"open", call_open},   {"settle", call_settle},       {"balance", call_balance}, {"close", call_close},
    {"size", call_size},   {"statement", call_statement}, {"share", call_share},     {"transfer", call_transfer},
    {"read", call_read},   {"field", call_field},
};

/* Runs the statement of that name, if the table has it. */
static int run_of(const statement *table, size_t count, const char *name)
{
    size_t i;
    for (i = 0; i < count; i++) {
        if (strcmp(table[i].name, name) == 0) {
            table[i].run();
            return 1;
        }
    }
    return 0;
}

static void run_call(const char *name)
{
    surround();
    if (!run_of(calls, sizeof calls / sizeof calls[0], name)) {
        fault("no such statement");
    }
    surroundings_stayed();
}

static void run_words(void)
{
    const char *name = next_word();
    if (name == NULL) {
        return;
    }
    if (list_named(name) < LISTS) {
        length[list_named(name)] = 0;
        add_words(list_named(name));
    } else if (!run_of(edits, sizeof edits / sizeof edits[0], name)) {
        run_call(name);
    }
    if (next_word() != NULL) {
        fault("a word too many");
    }
}

static int read_script_line(void)
{
    int byte;
    line_number++;
    line_length = 0;
    while ((byte = getchar()) != EOF && byte != '\n') {
        if (line_length == SCRIPT_LINE) {
            fault("the line is too long");
        }
        line[line_length++] = (char)byte;
    }
    line[line_length] = '\0';
    rest = line;
    return byte != EOF || line_length > 0;
}

int main(void)
{
    while (read_script_line()) {
        if (line_length >= 5 && memcmp(line, "text ", 5) == 0) {
            set_line(line + 5, line_length - 5);
        } else if (line[0] != '#') {
            run_words();
        }
    }
    show_state();
    return fflush(stdout) == 0 && !ferror(stdin) ? 0 : 1;
}
