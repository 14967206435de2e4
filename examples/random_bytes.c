/* Hands random rules, records, cursors and buffers to the library, and watches what comes back.
 *
 * usage: random_bytes SEED SECONDS [ROUNDS]        it ends after the seconds, or after the rounds where they are given
 *
 * Every lent piece of memory has its exact size, so that valgrind sees a step beyond it; half of the empty ones are NULL. Of
 * the records and cursors five in eight are good as they are; the others are good ones with some bytes changed, or cut, or of
 * another version, or nothing but noise.
 */
#include <inttypes.h>
#include <stdio.h>
#include <stdlib.h>
#include <string.h>
#include <time.h>

#include "yomaveludge.h"

enum { LISTS = 10, POOL = 256, SLOTS = 64, GUARDS = 4 };

static const int lowest[LISTS] = {1, -31, -366, -53, -53, 0, 0, 0, 0, -366};
static const int highest[LISTS] = {12, 31, 366, 53, 53, 6, 23, 59, 59, 366};

static uint64_t state;
static uint8_t pool[POOL][YOMAVELUDGE_RECORD_LENGTH];
static uint8_t cursors[POOL][YOMAVELUDGE_CURSOR_LENGTH];
static unsigned pooled;
static uint64_t answers[4][256];
static uint64_t instants;

static uint64_t next_random(void)
{
    state += 0x9e3779b97f4a7c15u;
    uint64_t z = state;
    z = (z ^ (z >> 30)) * 0xbf58476d1ce4e5b9u;
    z = (z ^ (z >> 27)) * 0x94d049bb133111ebu;
    return z ^ (z >> 31);
}

static unsigned below(unsigned n)
{
    return (unsigned)(next_random() % n);
}

static void fail(const char *what, unsigned number)
{
    printf("FAULT: %s (%u)\n", what, number);
    exit(1);
}

static void *lend(const void *bytes, size_t length)
{
    if (length == 0 && below(2) == 0) {
        return NULL;
    }
    void *copy = malloc(length == 0 ? 1 : length);
    if (copy == NULL) {
        fail("no memory", 0);
    }
    if (length != 0) {
        memcpy(copy, bytes, length);
    }
    return copy;
}

static void add_noise(uint8_t *bytes, size_t length)
{
    for (size_t i = 0; i < length; i++) {
        bytes[i] = (uint8_t)next_random();
    }
}

/* Some bytes changed: most often to 0 or 1, so that it may still be good. */
static void change(uint8_t *bytes, size_t length)
{
    for (unsigned times = 1 + below(4); times != 0; times--) {
        size_t place = below(3) == 0 ? below(27) % length : below((unsigned)length);
        bytes[place] = below(4) == 0 ? (uint8_t)next_random() : (uint8_t)below(2);
    }
}

/* A list within its range and rising, most often; it returns the length. */
static size_t random_list(unsigned which, int16_t *list)
{
    if (below(3) != 0) {
        return 0;
    }
    size_t length = 0;
    int span = highest[which] - lowest[which] + 1;
    int value = lowest[which] + (int)below((unsigned)span);
    while (length < 8 && value <= highest[which]) {
        if (value != 0 || lowest[which] == 0) {
            list[length++] = (int16_t)value;
        }
        value += 1 + (int)below((unsigned)span);
    }
    if (length != 0 && below(24) == 0) {
        list[below((unsigned)length)] = (int16_t)next_random();
    }
    if (length != 0 && below(24) == 0) {
        list[below((unsigned)length)] = list[below((unsigned)length)];
    }
    return length;
}

/* BYDAY's two lists: every, or an nth, with weekdays that rise; now and then both kinds. */
static size_t random_days(int16_t *n, int16_t *weekday)
{
    size_t length = below(3) == 0 ? 1 + below(3) : 0;
    int16_t nth = below(2) == 0 ? 0 : (int16_t)((int)below(11) - 5);
    int16_t step = (int16_t)(below(9) == 0);
    for (size_t i = 0; i < length; i++) {
        n[i] = (int16_t)(nth + step * (int16_t)i);
        weekday[i] = (int16_t)(2 * i + below(2));
    }
    return length;
}

/* The ten lists of a rule, each lent with its exact size. */
struct lists {
    int16_t *entries[LISTS];
    size_t lengths[LISTS];
};

/* Whether a rule of this frequency may have the list. */
static int may_have(uint8_t frequency, unsigned which)
{
    switch (which) {
    case 1: return frequency != YOMAVELUDGE_WEEKLY;
    case 2: return frequency < YOMAVELUDGE_MONTHLY || frequency > YOMAVELUDGE_DAILY;
    case 3: return frequency == YOMAVELUDGE_YEARLY;
    default: return 1;
    }
}

static struct lists lend_lists(uint8_t frequency)
{
    int16_t entries[LISTS][8] = {{0}};
    struct lists lent;
    for (unsigned i = 0; i < LISTS; i++) {
        lent.lengths[i] = may_have(frequency, i) || below(20) == 0 ? random_list(i, entries[i]) : 0;
    }
    lent.lengths[4] = random_days(entries[4], entries[5]);
    lent.lengths[5] = below(40) == 0 ? below(9) : lent.lengths[4];
    for (unsigned i = 0; i < LISTS; i++) {
        lent.entries[i] = lend(entries[i], lent.lengths[i] * sizeof(int16_t));
    }
    return lent;
}

/* The numbers of a rule: good most often. */
struct numbers {
    uint64_t start;
    uint64_t until;
    uint32_t count;
    uint16_t interval;
    uint8_t frequency;
    uint8_t counted;
    uint8_t bounded;
    uint8_t week_start;
};

static struct numbers random_numbers(void)
{
    struct numbers n;
    n.start = below(30) == 0 ? next_random() : next_random() % 253402300800u;
    n.until = below(30) == 0 ? next_random() : n.start + next_random() % 1000000000u;
    n.count = below(30) == 0 ? 0 : 1 + below(99);
    n.interval = (uint16_t)(below(30) == 0 ? 0 : 1 + below(below(9) == 0 ? 65535 : 4));
    n.frequency = (uint8_t)below(below(30) == 0 ? 256 : 7);
    n.counted = (uint8_t)below(3);
    n.bounded = (uint8_t)(n.counted == 0 || below(20) == 0 ? below(3) : 0);
    n.week_start = (uint8_t)below(below(30) == 0 ? 256 : 7);
    return n;
}

static uint8_t call_check(const struct numbers *n, const struct lists *l, uint8_t *record, size_t length)
{
    int16_t *const *e = l->entries;
    const size_t *k = l->lengths;
    return yomaveludge_check(
        n->frequency, n->interval, n->counted, n->count, n->bounded, n->until, n->week_start, n->start,
        e[0], k[0], e[1], k[1], e[2], k[2], e[3], k[3], e[4], k[4],
        e[5], k[5], e[6], k[6], e[7], k[7], e[8], k[8], e[9], k[9], record, length);
}

/* An accepted record goes into the pool, with its fresh cursor. That one is running: with no slot a run says More. */
static void keep(const uint8_t *record)
{
    uint8_t *cursor = cursors[pooled % POOL];
    uint32_t made;
    size_t handed;
    uint8_t cause;
    memcpy(pool[pooled % POOL], record, YOMAVELUDGE_RECORD_LENGTH);
    uint8_t answer = yomaveludge_fresh(record, YOMAVELUDGE_RECORD_LENGTH, cursor, YOMAVELUDGE_CURSOR_LENGTH);
    if (answer != YOMAVELUDGE_ACCEPTED) {
        fail("fresh: a checked record is refused", answer);
    }
    answer = yomaveludge_run(
        record, YOMAVELUDGE_RECORD_LENGTH, cursor, YOMAVELUDGE_CURSOR_LENGTH, NULL, 0, 0, &made, &handed, &cause);
    if (answer != YOMAVELUDGE_MORE) {
        fail("fresh: the cursor isn't running", answer);
    }
    pooled++;
}

/* With no record to write to, the check still judges the rule: 20 says that it would accept. */
static uint8_t expected_check(const struct numbers *numbers, const struct lists *lent, size_t length)
{
    uint8_t judged = call_check(numbers, lent, NULL, 0);
    if (judged == YOMAVELUDGE_ACCEPTED) {
        fail("check: a record of no length is accepted", judged);
    }
    return judged == YOMAVELUDGE_BAD_RECORD && length == YOMAVELUDGE_RECORD_LENGTH ? YOMAVELUDGE_ACCEPTED : judged;
}

static void try_check(void)
{
    struct numbers numbers = random_numbers();
    struct lists lent = lend_lists(numbers.frequency);
    size_t length = below(20) == 0 ? below(6000) : YOMAVELUDGE_RECORD_LENGTH;
    uint8_t before[6000];
    add_noise(before, length);
    uint8_t *record = lend(before, length);
    uint8_t answer = call_check(&numbers, &lent, record, length);
    answers[0][answer]++;
    if (answer > YOMAVELUDGE_LIST_MISPLACED && answer != YOMAVELUDGE_BAD_RECORD) {
        fail("check: no such answer", answer);
    }
    if (answer != expected_check(&numbers, &lent, length)) {
        fail("check: the rule is judged first, then the length", answer);
    }
    if (YOMAVELUDGE_REFUSED(answer) && length != 0 && memcmp(record, before, length) != 0) {
        fail("check: refused, and the bytes are changed", answer);
    }
    if (answer == YOMAVELUDGE_ACCEPTED) {
        keep(record);
    }
    free(record);
    for (unsigned i = 0; i < LISTS; i++) {
        free(lent.entries[i]);
    }
}

/* What may have befallen the bytes of a record or a cursor. */
enum { GOOD, CHANGED, CUT, OTHER_VERSION, NOISE };

static size_t random_of(const uint8_t *good, size_t length, uint8_t *bytes, unsigned *kind)
{
    *kind = below(8) < 5 ? GOOD : CHANGED + below(4);
    memcpy(bytes, good, length);
    if (*kind == CHANGED) {
        change(bytes, length);
    }
    if (*kind == CUT) {
        return below((unsigned)length);
    }
    if (*kind == OTHER_VERSION) {
        bytes[0] = (uint8_t)(bytes[0] + 1 + below(255));
    }
    if (*kind == NOISE) {
        add_noise(bytes, length);
    }
    return length;
}

static size_t random_record(uint8_t *bytes, unsigned which, unsigned *kind)
{
    return random_of(pool[which], YOMAVELUDGE_RECORD_LENGTH, bytes, kind);
}

static size_t random_cursor(uint8_t *bytes, unsigned which, unsigned *kind)
{
    return random_of(cursors[which], YOMAVELUDGE_CURSOR_LENGTH, bytes, kind);
}

static void try_fresh(unsigned which)
{
    uint8_t bytes[YOMAVELUDGE_RECORD_LENGTH];
    uint8_t before[64];
    unsigned kind;
    size_t length = random_record(bytes, which, &kind);
    size_t room = below(4) == 0 ? below(64) : YOMAVELUDGE_CURSOR_LENGTH;
    add_noise(before, room);
    uint8_t *record = lend(bytes, length);
    uint8_t *cursor = lend(before, room);
    uint8_t answer = yomaveludge_fresh(record, length, cursor, room);
    answers[1][answer]++;
    if (answer != YOMAVELUDGE_ACCEPTED && answer != YOMAVELUDGE_BAD_RECORD && answer != YOMAVELUDGE_BAD_CURSOR) {
        fail("fresh: no such answer", answer);
    }
    if (kind == GOOD && answer != (room == YOMAVELUDGE_CURSOR_LENGTH ? YOMAVELUDGE_ACCEPTED : YOMAVELUDGE_BAD_CURSOR)) {
        fail("fresh: a good record", answer);
    }
    if (kind > CHANGED && answer != YOMAVELUDGE_BAD_RECORD) {
        fail("fresh: cut, another version or noise is taken", answer);
    }
    if (YOMAVELUDGE_REFUSED(answer) && room != 0 && memcmp(cursor, before, room) != 0) {
        fail("fresh: refused, and the bytes are changed", answer);
    }
    if (length != 0 && memcmp(record, bytes, length) != 0) {
        fail("fresh: the record is changed", answer);
    }
    free(record);
    free(cursor);
}

/* What is lent to a run, as it was before and as it is after. */
struct call {
    uint8_t record_before[YOMAVELUDGE_RECORD_LENGTH];
    uint8_t cursor_before[YOMAVELUDGE_CURSOR_LENGTH];
    uint64_t buffer_before[SLOTS + GUARDS];
    uint8_t *record;
    uint8_t *cursor;
    uint64_t *buffer;
    size_t record_length;
    size_t cursor_length;
    size_t slots;
    uint32_t moves;
    uint32_t made;
    size_t handed;
    uint8_t cause;
    uint8_t answer;
};

/* What a run that is not refused keeps to. */
static void judge_run(const struct call *c)
{
    if (c->answer < YOMAVELUDGE_MORE || c->answer > YOMAVELUDGE_ENDED) {
        fail("run: no such stop", c->answer);
    }
    if (c->handed > c->slots || c->made > c->moves) {
        fail("run: more than was lent", c->answer);
    }
    if ((c->answer == YOMAVELUDGE_MORE && c->handed != c->slots) || (c->answer == YOMAVELUDGE_LIMITED && c->made != c->moves)) {
        fail("run: stopped for no reason", c->answer);
    }
    if ((c->answer == YOMAVELUDGE_ENDED) != (c->cause != YOMAVELUDGE_RUNNING) || c->cause > YOMAVELUDGE_BY_RANGE) {
        fail("run: the cause", c->cause);
    }
    if (c->cause == YOMAVELUDGE_BY_INTERVAL && memcmp(c->cursor, c->cursor_before, c->cursor_length) != 0) {
        fail("run: ended by INTERVAL 0, and the cursor isn't the one given", c->cause);
    }
    for (size_t i = 0; i < c->handed; i++) {
        if (c->buffer[i] > 253402300799u || (i != 0 && c->buffer[i] <= c->buffer[i - 1])) {
            fail("run: the instants", c->answer);
        }
    }
    size_t rest = c->slots - c->handed;
    if (rest != 0 && memcmp(c->buffer + c->handed, c->buffer_before + c->handed, rest * sizeof(uint64_t)) != 0) {
        fail("run: slots past those handed out", c->answer);
    }
    answers[3][c->cause]++;
    instants += c->handed;
}

/* What a refused run keeps to: nothing is changed, and the counts are 0. */
static void judge_refused(const struct call *c)
{
    if (c->answer != YOMAVELUDGE_BAD_RECORD && c->answer != YOMAVELUDGE_BAD_CURSOR) {
        fail("run: no such answer", c->answer);
    }
    if (c->cursor_length != 0 && memcmp(c->cursor, c->cursor_before, c->cursor_length) != 0) {
        fail("run: refused, and the cursor is changed", c->answer);
    }
    if (c->slots != 0 && memcmp(c->buffer, c->buffer_before, c->slots * sizeof(uint64_t)) != 0) {
        fail("run: refused, and the buffer is changed", c->answer);
    }
    if (c->made != 0 || c->handed != 0 || c->cause != 0) {
        fail("run: refused, and the counts aren't 0", c->answer);
    }
}

static void call_run(struct call *c)
{
    c->slots = below(SLOTS + 1);
    size_t guards = c->slots == 0 ? 0 : GUARDS;
    add_noise((uint8_t *)c->buffer_before, sizeof c->buffer_before);
    c->record = lend(c->record_before, c->record_length);
    c->cursor = lend(c->cursor_before, c->cursor_length);
    c->buffer = lend(c->buffer_before, (c->slots + guards) * sizeof(uint64_t));
    c->moves = below(24);
    c->made = 77;
    c->handed = 77;
    c->cause = 77;
    c->answer = yomaveludge_run(
        c->record, c->record_length, c->cursor, c->cursor_length, c->buffer, c->slots, c->moves, &c->made, &c->handed, &c->cause);
    answers[2][c->answer]++;
    if (c->record_length != 0 && memcmp(c->record, c->record_before, c->record_length) != 0) {
        fail("run: the record is changed", c->answer);
    }
    if (guards != 0 && memcmp(c->buffer + c->slots, c->buffer_before + c->slots, guards * sizeof(uint64_t)) != 0) {
        fail("run: slots behind the buffer", c->answer);
    }
}

static void try_run(unsigned which)
{
    struct call c;
    unsigned record_kind;
    unsigned cursor_kind;
    c.record_length = random_record(c.record_before, which, &record_kind);
    c.cursor_length = random_cursor(c.cursor_before, which, &cursor_kind);
    call_run(&c);
    int refused = YOMAVELUDGE_REFUSED(c.answer);
    if (record_kind == GOOD && cursor_kind == GOOD && refused) {
        fail("run: a good cursor is refused", c.answer);
    }
    if ((record_kind > CHANGED || cursor_kind == CUT || cursor_kind == OTHER_VERSION) && !refused) {
        fail("run: cut, another version or noise is taken", c.answer);
    }
    if (refused) {
        judge_refused(&c);
    } else {
        judge_run(&c);
        if (record_kind == GOOD) {
            memcpy(cursors[which], c.cursor, c.cursor_length);
        }
    }
    free(c.record);
    free(c.cursor);
    free(c.buffer);
}

static void print_answers(const char *name, unsigned which)
{
    printf("%s:", name);
    for (unsigned i = 0; i < 256; i++) {
        if (answers[which][i] != 0) {
            printf(" %u x %" PRIu64, i, answers[which][i]);
        }
    }
    printf("\n");
}

int main(int argc, char **argv)
{
    if (argc < 3) {
        fprintf(stderr, "usage: random_bytes SEED SECONDS [ROUNDS]\n");
        return 2;
    }
    state = strtoull(argv[1], NULL, 10);
    time_t end = time(NULL) + (time_t)strtoull(argv[2], NULL, 10);
    uint64_t rounds = argc > 3 ? strtoull(argv[3], NULL, 10) : UINT64_MAX;
    uint64_t made = 0;
    while (made < rounds && time(NULL) < end) {
        try_check();
        for (unsigned calls = pooled == 0 ? 0 : 4; calls != 0; calls--) {
            unsigned which = below(pooled < POOL ? pooled : POOL);
            try_fresh(which);
            try_run(which);
            try_run(which);
        }
        made++;
    }
    printf("seed %s: %" PRIu64 " rounds, %" PRIu64 " instants, no fault\n", argv[1], made, instants);
    print_answers("check", 0);
    print_answers("fresh", 1);
    print_answers("run", 2);
    print_answers("cause", 3);
    return 0;
}
