/* Power cuts and an update of the firmware: a panel that goes on from what it stored, cut off at every step in turn.
 *
 * The rule is a week of chart starts. The store has two slots that are written in turn, byte by byte; each has its turn, the
 * instant from which on nothing was acted on, the cursor, and a checksum over all three. docs/PANEL.md says why.
 * Each cut comes up to three times, once before each step of the panel: a wait, an act, an erased slot, a written byte.
 * At the end a cursor comes up that was kept from before the version of its bytes went from 1 to 2.
 */
#include <setjmp.h>
#include <stdio.h>
#include <stdlib.h>
#include <string.h>

#include "yomaveludge.h"

enum { STARTS = 21, CUTS = 3, CURSOR_AT = 16, SUM_AT = CURSOR_AT + YOMAVELUDGE_CURSOR_LENGTH, SLOT_LENGTH = SUM_AT + 4 };

enum order { SAVE_THEN_ACT, ACT_THEN_SAVE };

static const int16_t hours[] = {6, 14, 22};

static uint8_t store[2][SLOT_LENGTH];
static unsigned acts[STARTS];
static unsigned long steps_left;
static jmp_buf power_cut;

/* What a slot holds. */
struct slot {
    uint64_t turn;
    uint64_t due_from;
    uint8_t cursor[YOMAVELUDGE_CURSOR_LENGTH];
};

static void fail(const char *what, unsigned long number)
{
    printf("FAULT: %s (%lu)\n", what, number);
    exit(1);
}

static void step(void)
{
    if (steps_left == 0) {
        longjmp(power_cut, 1);
    }
    steps_left--;
}

/* The rule DAILY;COUNT=21;BYHOUR=6,14,22 from 2024-01-01T00:00:00Z, as the panel keeps it. */
static void check_rule(uint8_t *record)
{
    uint8_t answer = yomaveludge_check(
        YOMAVELUDGE_DAILY, 1, 1, STARTS, 0, 0, 0, 1704067200,
        NULL, 0, NULL, 0, NULL, 0, NULL, 0, NULL, 0, NULL, 0, hours, 3, NULL, 0, NULL, 0, NULL, 0,
        record, YOMAVELUDGE_RECORD_LENGTH);
    if (YOMAVELUDGE_REFUSED(answer)) {
        fail(yomaveludge_meaning(answer), answer);
    }
}

static void make_fresh(const uint8_t *record, uint8_t *cursor)
{
    uint8_t answer = yomaveludge_fresh(record, YOMAVELUDGE_RECORD_LENGTH, cursor, YOMAVELUDGE_CURSOR_LENGTH);
    if (YOMAVELUDGE_REFUSED(answer)) {
        fail(yomaveludge_meaning(answer), answer);
    }
}

/* CRC-32, bit by bit. */
static uint32_t checksum(const uint8_t *bytes, size_t length)
{
    uint32_t sum = 0xffffffffu;
    for (size_t i = 0; i < length; i++) {
        sum ^= bytes[i];
        for (int bit = 0; bit < 8; bit++) {
            sum = (sum >> 1) ^ (0xedb88320u & (0u - (sum & 1u)));
        }
    }
    return ~sum;
}

static void encode(const struct slot *slot, uint8_t *bytes)
{
    memcpy(bytes, &slot->turn, 8);
    memcpy(bytes + 8, &slot->due_from, 8);
    memcpy(bytes + CURSOR_AT, slot->cursor, sizeof slot->cursor);
    uint32_t sum = checksum(bytes, SUM_AT);
    memcpy(bytes + SUM_AT, &sum, 4);
}

static int decode(const uint8_t *bytes, struct slot *slot)
{
    uint32_t sum;
    memcpy(&slot->turn, bytes, 8);
    memcpy(&slot->due_from, bytes + 8, 8);
    memcpy(slot->cursor, bytes + CURSOR_AT, sizeof slot->cursor);
    memcpy(&sum, bytes + SUM_AT, 4);
    return sum == checksum(bytes, SUM_AT);
}

/* Writes the slot whose turn it is; the other one stays whole. */
static void save(struct slot *slot)
{
    uint8_t bytes[SLOT_LENGTH];
    slot->turn++;
    encode(slot, bytes);
    uint8_t *place = store[slot->turn % 2];
    step();
    memset(place, 0xff, SLOT_LENGTH);
    for (size_t i = 0; i < SLOT_LENGTH; i++) {
        step();
        place[i] = bytes[i];
    }
}

/* The younger of the good slots. Where there is none, the panel is new. */
static void restore(const uint8_t *record, struct slot *slot)
{
    struct slot other;
    int good = decode(store[0], slot);
    if (decode(store[1], &other) && (!good || other.turn > slot->turn)) {
        *slot = other;
        good = 1;
    }
    if (!good) {
        slot->turn = 0;
        slot->due_from = 0;
        make_fresh(record, slot->cursor);
    }
}

static void act(uint64_t instant)
{
    uint64_t day = (instant - 1704067200) / 86400;
    uint64_t hour = (instant - 1704067200) % 86400 / 3600;
    step();
    acts[day * 3 + (hour - 6) / 8]++;
}

/* Waits for the instant, acts, and saves that nothing is due before the next second. */
static void meet(struct slot *slot, uint64_t instant, enum order order)
{
    step();
    slot->due_from = instant + 1;
    if (order == ACT_THEN_SAVE) {
        act(instant);
    }
    save(slot);
    if (order == SAVE_THEN_ACT) {
        act(instant);
    }
}

/* The panel, from power-up to the end of the listing. */
static void run_panel(enum order order)
{
    uint8_t record[YOMAVELUDGE_RECORD_LENGTH];
    struct slot slot;
    check_rule(record);
    restore(record, &slot);
    for (;;) {
        uint64_t instant;
        uint32_t made;
        size_t handed;
        uint8_t cause;
        uint8_t answer = yomaveludge_run(
            record, sizeof record, slot.cursor, sizeof slot.cursor, &instant, 1, 30, &made, &handed, &cause);
        if (answer == YOMAVELUDGE_BAD_CURSOR) {
            make_fresh(record, slot.cursor);
            continue;
        }
        if (YOMAVELUDGE_REFUSED(answer)) {
            fail(yomaveludge_meaning(answer), answer);
        }
        if (handed == 1 && instant >= slot.due_from) {
            meet(&slot, instant, order);
        }
        if (answer == YOMAVELUDGE_ENDED) {
            return;
        }
    }
}

/* The firmware is updated: each good slot's cursor is now one of an older version. */
static void age_store(void)
{
    for (unsigned i = 0; i < 2; i++) {
        struct slot slot;
        if (decode(store[i], &slot)) {
            slot.cursor[0] = YOMAVELUDGE_CURSOR_VERSION - 1;
            encode(&slot, store[i]);
        }
    }
}

/* From an empty store, with the power cut after so many steps, up to three times. It returns how often it was cut. */
static unsigned run_cut(unsigned long steps, enum order order, int updated)
{
    static unsigned cuts;
    cuts = 0;
    memset(store, 0xff, sizeof store);
    memset(acts, 0, sizeof acts);
    steps_left = steps;
    if (setjmp(power_cut) != 0) {
        cuts++;
        steps_left = cuts < CUTS ? steps : (unsigned long)-1;
        if (updated) {
            age_store();
        }
    }
    run_panel(order);
    return cuts;
}

static void try_cuts(enum order order, int updated)
{
    unsigned long tried = 0;
    unsigned long missing = 0;
    unsigned long doubled = 0;
    for (unsigned long steps = 0;; steps++) {
        unsigned cuts = run_cut(steps, order, updated);
        unsigned lost = 0;
        unsigned more = 0;
        for (unsigned i = 0; i < STARTS; i++) {
            lost += acts[i] == 0;
            more += acts[i] > 1 ? acts[i] - 1 : 0;
        }
        if (lost > (order == SAVE_THEN_ACT ? cuts : 0) || more > (order == ACT_THEN_SAVE ? cuts : 0)) {
            fail("more missing or doubled than the order allows", steps);
        }
        missing += lost;
        doubled += more;
        tried += cuts;
        if (cuts == 0) {
            break;
        }
    }
    printf("%s%s: cuts %lu, starts missing %lu, doubled %lu\n", order == SAVE_THEN_ACT ? "save, then act" : "act, then save",
        updated ? ", updated at each cut" : "", tried, missing, doubled);
}

/* How many of all changes of one byte of a cursor are taken by the run, and of a slot by its checksum. */
static void try_changes(const uint8_t *record, const struct slot *slot, const char *kind)
{
    unsigned taken = 0;
    unsigned unseen = 0;
    for (size_t i = 0; i < SLOT_LENGTH * 255; i++) {
        uint8_t bytes[SLOT_LENGTH];
        size_t place = i / 255;
        struct slot changed;
        encode(slot, bytes);
        bytes[place] = (uint8_t)(bytes[place] + 1 + i % 255);
        unseen += decode(bytes, &changed) != 0;
        if (place >= CURSOR_AT && place < SUM_AT) {
            uint32_t made;
            size_t handed;
            uint8_t cause;
            taken += !YOMAVELUDGE_REFUSED(yomaveludge_run(
                record, YOMAVELUDGE_RECORD_LENGTH, changed.cursor, sizeof changed.cursor, NULL, 0, 0, &made, &handed, &cause));
        }
    }
    printf("%s cursor: changes of one byte %d, taken by the run %u; changes of one byte of its slot %d, taken by the checksum %u\n",
        kind, YOMAVELUDGE_CURSOR_LENGTH * 255, taken, SLOT_LENGTH * 255, unseen);
}

/* The same of a cursor in the middle of the listing, and of one at its end. */
static void try_changes_of_two(void)
{
    static const size_t handed_out[] = {8, STARTS};
    static const char *const kinds[] = {"a running", "an ended"};
    uint8_t record[YOMAVELUDGE_RECORD_LENGTH];
    check_rule(record);
    for (unsigned i = 0; i < 2; i++) {
        struct slot slot = {1, 0, {0}};
        uint64_t buffer[STARTS];
        uint32_t made;
        size_t handed;
        uint8_t cause;
        make_fresh(record, slot.cursor);
        yomaveludge_run(record, sizeof record, slot.cursor, sizeof slot.cursor, buffer, handed_out[i], 30, &made, &handed, &cause);
        slot.due_from = buffer[handed - 1] + 1;
        try_changes(record, &slot, kinds[i]);
    }
}

/* The rule WEEKLY;BYDAY=MO,WE,FR from Wednesday 2024-01-03T00:00:00Z. */
static void check_weekly(uint8_t *record)
{
    static const int16_t every[] = {0, 0, 0};
    static const int16_t weekdays[] = {0, 2, 4};
    uint8_t answer = yomaveludge_check(
        YOMAVELUDGE_WEEKLY, 1, 0, 0, 0, 0, 0, 1704240000,
        NULL, 0, NULL, 0, NULL, 0, NULL, 0, every, 3, weekdays, 3, NULL, 0, NULL, 0, NULL, 0, NULL, 0,
        record, YOMAVELUDGE_RECORD_LENGTH);
    if (YOMAVELUDGE_REFUSED(answer)) {
        fail(yomaveludge_meaning(answer), answer);
    }
}

/* The next instant from a cursor on, from due_from on; a cursor that is refused gives way to the fresh one. */
static uint64_t next_due(const uint8_t *record, uint8_t *cursor, uint64_t due_from, unsigned *refused)
{
    uint64_t instant = 0;
    uint32_t made;
    size_t handed = 0;
    uint8_t cause;
    *refused = 0;
    while (handed == 0 || instant < due_from) {
        uint8_t answer = yomaveludge_run(
            record, YOMAVELUDGE_RECORD_LENGTH, cursor, YOMAVELUDGE_CURSOR_LENGTH, &instant, 1, 30, &made, &handed, &cause);
        if (answer == YOMAVELUDGE_BAD_CURSOR) {
            *refused = answer;
            make_fresh(record, cursor);
        } else if (answer != YOMAVELUDGE_MORE) {
            fail(yomaveludge_meaning(answer), answer);
        }
    }
    return instant;
}

/* What version 1 kept when 3 and 5 January were handed out: running, k 0, place 2, number 2. The week began with the start
 * then, and both of its days were passed. Today it begins on Monday and has three: place 2 is before the Friday, which would
 * come again. */
static void try_kept(void)
{
    static const uint8_t kept[YOMAVELUDGE_CURSOR_LENGTH] = {1, 0, 0, 0, 0, 0, 0, 0, 0, 0, 2, 0, 0, 0, 2, 0, 0, 0, 0, 0, 0, 0};
    uint8_t record[YOMAVELUDGE_RECORD_LENGTH];
    uint8_t cursor[YOMAVELUDGE_CURSOR_LENGTH];
    unsigned refused;
    check_weekly(record);
    memcpy(cursor, kept, sizeof cursor);
    uint64_t instant = next_due(record, cursor, 1704412800 + 1, &refused);
    printf("a cursor kept from version 1: refused %u, next start %lu", refused, (unsigned long)instant);
    memcpy(cursor, kept, sizeof cursor);
    cursor[0] = YOMAVELUDGE_CURSOR_VERSION;
    instant = next_due(record, cursor, 0, &refused);
    printf("; taken for one of today: refused %u, next start %lu\n", refused, (unsigned long)instant);
}

int main(void)
{
    for (int updated = 0; updated < 2; updated++) {
        try_cuts(SAVE_THEN_ACT, updated);
        try_cuts(ACT_THEN_SAVE, updated);
    }
    try_changes_of_two();
    try_kept();
    return 0;
}
