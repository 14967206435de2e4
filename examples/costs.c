/* What a move costs on this machine, rule by rule, as a Markdown table.
 *
 * usage: costs [ROUNDS]          the best of so many calls (50)
 *        costs ROW MOVES         one call of the row with so many moves, for callgrind
 *
 * A row is a rule from 2024-01-01T00:00:00Z. Its call begins at the fresh cursor; a call with no move, which has the cost of
 * reading the record and the period of the start, is taken off, and the rest is divided by the moves made. A move that ends
 * by NoTick isn't counted as made; there the rest is its cost. Full lists are BYMONTH, BYMONTHDAY, BYYEARDAY and BYWEEKNO with
 * every entry, as far as the frequency may have them, and BYSETPOS=1; WEEKLY may have BYMONTH alone of these, and has BYDAY
 * with every weekday. Their INTERVAL makes each move end in another year.
 */
#include <inttypes.h>
#include <stdio.h>
#include <stdlib.h>
#include <string.h>
#include <time.h>

#include "yomaveludge.h"

enum { MONTHS, MONTH_DAYS, YEAR_DAYS, WEEK_NUMBERS, NTHS, WEEKDAYS, HOURS, MINUTES, SECONDS, POSITIONS, LISTS, SLOTS = 100000 };

/* A list is every entry of a range. */
struct range {
    unsigned list;
    int first;
    int last;
};

struct row {
    const char *rule;
    uint8_t frequency;
    uint16_t interval;
    uint32_t moves;
    struct range ranges[6];
};

#define NO_LIST {MONTHS, 0, 0}
#define NO_DAY {MONTHS, 2, 2}, {MONTH_DAYS, 30, 30}
#define MONTHS_AND_DAYS {MONTHS, 1, 12}, {MONTH_DAYS, -31, 31}, {POSITIONS, 1, 1}
#define ALL_OF_THE_WEEK {MONTHS, 1, 12}, {WEEKDAYS, 0, 6}, {POSITIONS, 1, 1}

static const struct row rows[] = {
    {"YEARLY", YOMAVELUDGE_YEARLY, 1, 100, {NO_LIST}},
    {"YEARLY;BYMONTH=2;BYMONTHDAY=30", YOMAVELUDGE_YEARLY, 1, 100, {NO_DAY}},
    {"YEARLY, full lists", YOMAVELUDGE_YEARLY, 1, 100, {MONTHS_AND_DAYS, {YEAR_DAYS, -366, 366}, {WEEK_NUMBERS, -53, 53}}},
    {"MONTHLY", YOMAVELUDGE_MONTHLY, 1, 1000, {NO_LIST}},
    {"MONTHLY;BYMONTH=2;BYMONTHDAY=30", YOMAVELUDGE_MONTHLY, 1, 1000, {NO_DAY}},
    {"MONTHLY;INTERVAL=13, full lists", YOMAVELUDGE_MONTHLY, 13, 1000, {MONTHS_AND_DAYS}},
    {"WEEKLY", YOMAVELUDGE_WEEKLY, 1, 1000, {NO_LIST}},
    {"WEEKLY;BYDAY=MO;BYSETPOS=2", YOMAVELUDGE_WEEKLY, 1, 1000, {{WEEKDAYS, 0, 0}, {POSITIONS, 2, 2}}},
    {"WEEKLY;INTERVAL=53, full lists", YOMAVELUDGE_WEEKLY, 53, 1000, {ALL_OF_THE_WEEK}},
    {"DAILY", YOMAVELUDGE_DAILY, 1, 1000, {NO_LIST}},
    {"DAILY;BYMONTH=2;BYMONTHDAY=30", YOMAVELUDGE_DAILY, 1, 1000, {NO_DAY}},
    {"DAILY;INTERVAL=367, full lists", YOMAVELUDGE_DAILY, 367, 1000, {MONTHS_AND_DAYS}},
    {"HOURLY", YOMAVELUDGE_HOURLY, 1, 1000, {NO_LIST}},
    {"HOURLY;BYMONTH=2;BYMONTHDAY=30;BYHOUR=23", YOMAVELUDGE_HOURLY, 1, 1000, {NO_DAY, {HOURS, 23, 23}}},
    {"HOURLY;INTERVAL=8785, full lists", YOMAVELUDGE_HOURLY, 8785, 1000, {MONTHS_AND_DAYS, {YEAR_DAYS, -366, 366}}},
    {"MINUTELY", YOMAVELUDGE_MINUTELY, 1, 1000, {NO_LIST}},
    {"MINUTELY;BYHOUR=3;BYMINUTE=0", YOMAVELUDGE_MINUTELY, 1, 1000, {{HOURS, 3, 3}, {MINUTES, 0, 0}}},
    {"MINUTELY;BYMONTH=2;BYMONTHDAY=30;BYHOUR=23", YOMAVELUDGE_MINUTELY, 1, 1000, {NO_DAY, {HOURS, 23, 23}}},
    {"MINUTELY;INTERVAL=3;BYMINUTE=1 (NoTick)", YOMAVELUDGE_MINUTELY, 3, 1, {{MINUTES, 1, 1}}},
    {"SECONDLY", YOMAVELUDGE_SECONDLY, 1, 1000, {NO_LIST}},
    {"SECONDLY;BYSECOND=0", YOMAVELUDGE_SECONDLY, 1, 1000, {{SECONDS, 0, 0}}},
    {"SECONDLY;BYMONTH=2;BYMONTHDAY=30", YOMAVELUDGE_SECONDLY, 1, 1000, {NO_DAY}},
    {"SECONDLY;BYHOUR=3;BYMINUTE=0;BYSECOND=0", YOMAVELUDGE_SECONDLY, 1, 20, {{HOURS, 3, 3}, {MINUTES, 0, 0}, {SECONDS, 0, 0}}},
    {"SECONDLY;BYMONTH=2;BYMONTHDAY=30;BYHOUR=23", YOMAVELUDGE_SECONDLY, 1, 20, {NO_DAY, {HOURS, 23, 23}}},
    {"SECONDLY;INTERVAL=2;BYSECOND=1 (NoTick)", YOMAVELUDGE_SECONDLY, 2, 1, {{SECONDS, 1, 1}}},
};

enum { ROWS = sizeof rows / sizeof rows[0] };

static uint64_t buffer[SLOTS];

/* NO_LIST fills nothing: BYMONTH has no 0. */
static size_t fill(const struct range *range, int16_t *list)
{
    size_t length = 0;
    for (int entry = range->first; entry <= range->last; entry++) {
        if (entry != 0 || (range->list >= WEEKDAYS && range->list <= SECONDS)) {
            list[length++] = (int16_t)entry;
        }
    }
    return length;
}

static void check_row(const struct row *row, uint8_t *record)
{
    static int16_t e[LISTS][732];
    size_t k[LISTS] = {0};
    for (unsigned i = 0; i < sizeof row->ranges / sizeof row->ranges[0]; i++) {
        unsigned list = row->ranges[i].list;
        if (k[list] == 0) {
            k[list] = fill(&row->ranges[i], e[list]);
        }
    }
    k[NTHS] = k[WEEKDAYS]; /* each n is 0: every such weekday */
    uint8_t answer = yomaveludge_check(
        row->frequency, row->interval, 0, 0, 0, 0, 0, 1704067200,
        e[0], k[0], e[1], k[1], e[2], k[2], e[3], k[3], e[4], k[4],
        e[5], k[5], e[6], k[6], e[7], k[7], e[8], k[8], e[9], k[9], record, YOMAVELUDGE_RECORD_LENGTH);
    if (YOMAVELUDGE_REFUSED(answer)) {
        printf("%s: %s\n", row->rule, yomaveludge_meaning(answer));
        exit(1);
    }
}

/* One call from the fresh cursor, in ns of the processor's time. */
static double call(const uint8_t *record, uint32_t moves, uint32_t *made)
{
    uint8_t cursor[YOMAVELUDGE_CURSOR_LENGTH];
    size_t handed;
    uint8_t cause;
    struct timespec begin;
    struct timespec end;
    yomaveludge_fresh(record, YOMAVELUDGE_RECORD_LENGTH, cursor, sizeof cursor);
    clock_gettime(CLOCK_PROCESS_CPUTIME_ID, &begin);
    yomaveludge_run(record, YOMAVELUDGE_RECORD_LENGTH, cursor, sizeof cursor, buffer, SLOTS, moves, made, &handed, &cause);
    clock_gettime(CLOCK_PROCESS_CPUTIME_ID, &end);
    return 1e9 * (double)(end.tv_sec - begin.tv_sec) + (double)(end.tv_nsec - begin.tv_nsec);
}

static double best(const uint8_t *record, uint32_t moves, unsigned rounds, uint32_t *made)
{
    double least = call(record, moves, made);
    for (unsigned i = 1; i < rounds; i++) {
        double time = call(record, moves, made);
        least = time < least ? time : least;
    }
    return least;
}

static void print_table(unsigned rounds)
{
    uint8_t record[YOMAVELUDGE_RECORD_LENGTH];
    printf("| row | rule | a call with no move, ns | a move, ns |\n|---|---|---|---|\n");
    for (unsigned i = 0; i < ROWS; i++) {
        uint32_t made;
        check_row(&rows[i], record);
        double still = best(record, 0, rounds, &made);
        double moved = best(record, rows[i].moves, rounds, &made);
        printf("| %u | %s | %.0f | %.0f |\n", i, rows[i].rule, still, (moved - still) / (made == 0 ? 1 : made));
    }
}

int main(int argc, char **argv)
{
    if (argc < 3) {
        unsigned long rounds = argc < 2 ? 50 : strtoul(argv[1], NULL, 10);
        print_table(rounds == 0 ? 1 : (unsigned)rounds);
        return 0;
    }
    uint8_t record[YOMAVELUDGE_RECORD_LENGTH];
    uint32_t made;
    check_row(&rows[strtoul(argv[1], NULL, 10) % ROWS], record);
    call(record, (uint32_t)strtoul(argv[2], NULL, 10), &made);
    printf("%" PRIu32 " moves\n", made);
    return 0;
}
