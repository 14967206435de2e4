/* Rules as texts: some are read and listed, some are refused, with a mark under the byte that can't be taken; and one is
 * written, first into a buffer that is too short. It needs docs/unfinished-panel.patch, and examples/run leaves it out.
 */
#include <inttypes.h>
#include <stdio.h>
#include <string.h>
#include <time.h>

#include "yomaveludge.h"

/* 2024-02-01T05:00:00Z */
static const uint64_t start = 1706763600;

static void print_instant(uint64_t instant)
{
    char text[32];
    time_t seconds = (time_t)instant;
    struct tm parts;
    if (gmtime_r(&seconds, &parts) != NULL && strftime(text, sizeof text, "%a %Y-%m-%d %H:%M:%SZ", &parts) != 0) {
        printf("  %s\n", text);
    }
}

/* The first three instants of a record. */
static void list_three(const uint8_t *record)
{
    uint8_t cursor[YOMAVELUDGE_CURSOR_LENGTH];
    uint64_t buffer[3];
    uint32_t made;
    size_t handed;
    uint8_t cause;
    yomaveludge_fresh(record, YOMAVELUDGE_RECORD_LENGTH, cursor, sizeof cursor);
    yomaveludge_run(record, YOMAVELUDGE_RECORD_LENGTH, cursor, sizeof cursor, buffer, 3, 1000, &made, &handed, &cause);
    for (size_t i = 0; i < handed; i++) {
        print_instant(buffer[i]);
    }
}

/* Reads a text, and lists the rule or says why not. */
static void show(const char *text)
{
    uint8_t record[YOMAVELUDGE_RECORD_LENGTH];
    size_t place;
    uint8_t answer = yomaveludge_read((const uint8_t *)text, strlen(text), start, record, sizeof record, &place);
    printf("%s\n", text);
    if (answer == YOMAVELUDGE_ACCEPTED) {
        list_three(record);
    } else if (answer == YOMAVELUDGE_UNREAD) {
        printf("%*s^ byte %zu: %s\n", (int)place, "", place, yomaveludge_meaning(answer));
    } else {
        printf("  %u, %s\n", answer, yomaveludge_meaning(answer));
    }
}

/* Writes the rule YEARLY on the first Monday and the last Friday, at 5 and 17, into so much room. */
static void write_into(uint8_t *text, size_t room)
{
    static const int16_t numbers[] = {-1, 1};
    static const int16_t weekdays[] = {4, 0};
    static const int16_t hours[] = {5, 17};
    size_t length;
    uint8_t answer = yomaveludge_write(
        YOMAVELUDGE_YEARLY, 1, 0, 0, 0, 0, 0,
        NULL, 0, NULL, 0, NULL, 0, NULL, 0, numbers, 2, weekdays, 2, hours, 2, NULL, 0, NULL, 0, NULL, 0,
        text, room, &length);
    printf("room for %zu: %s; length %zu\n", room, yomaveludge_meaning(answer), length);
    if (answer == YOMAVELUDGE_ACCEPTED) {
        printf("  %.*s\n", (int)length, (const char *)text);
    }
}

int main(void)
{
    uint8_t text[YOMAVELUDGE_WRITTEN_LENGTH];
    show("FREQ=MONTHLY;BYDAY=-1FR;BYHOUR=13;BYMINUTE=0");
    show("byhour=6,14,22;freq=daily;byminute=0");
    show("FREQ=DAIL;COUNT=3");
    show("FREQ=DAILY;BYDAY=0MO");
    show("FREQ=DAILY;UNTIL=20230229T000000Z");
    show("COUNT=3");
    show("FREQ=DAILY;BYHOUR=25");
    show("FREQ=DAILY;COUNT=3;UNTIL=20240301T000000Z");
    write_into(text, 20);
    write_into(text, 37);
    return 0;
}
