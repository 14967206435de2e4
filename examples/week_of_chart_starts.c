/* A week of chart starts: 06:00, 14:00 and 22:00 of every day from Monday 2024-01-01 to Sunday 2024-01-07.
 *
 * The buffer has four slots. Between two calls the cursor is written to a file and forgotten, and read back from there, as a
 * program does that stops and starts again.
 */
#include <inttypes.h>
#include <stdio.h>
#include <string.h>
#include <time.h>

#include "yomaveludge.h"

static const int16_t hours[] = {6, 14, 22};

/* The rule DAILY;UNTIL=2024-01-07T23:59:59Z;BYHOUR=6,14,22 from 2024-01-01T00:00:00Z. */
static uint8_t check_rule(uint8_t *record)
{
    return yomaveludge_check(
        YOMAVELUDGE_DAILY, 1, 0, 0, 1, 1704671999, 0, 1704067200,
        NULL, 0, NULL, 0, NULL, 0, NULL, 0, NULL, 0, NULL, 0, hours, 3, NULL, 0, NULL, 0, NULL, 0,
        record, YOMAVELUDGE_RECORD_LENGTH);
}

/* Saves a cursor, and wipes it. */
static int save(const char *path, uint8_t *cursor)
{
    FILE *file = fopen(path, "wb");
    if (file == NULL) {
        return 0;
    }
    size_t written = fwrite(cursor, 1, YOMAVELUDGE_CURSOR_LENGTH, file);
    memset(cursor, 0xff, YOMAVELUDGE_CURSOR_LENGTH);
    return fclose(file) == 0 && written == YOMAVELUDGE_CURSOR_LENGTH;
}

static int restore(const char *path, uint8_t *cursor)
{
    FILE *file = fopen(path, "rb");
    if (file == NULL) {
        return 0;
    }
    size_t read = fread(cursor, 1, YOMAVELUDGE_CURSOR_LENGTH, file);
    return fclose(file) == 0 && read == YOMAVELUDGE_CURSOR_LENGTH;
}

static void print_instant(uint64_t instant)
{
    char text[32];
    time_t seconds = (time_t)instant;
    struct tm parts;
    if (gmtime_r(&seconds, &parts) != NULL && strftime(text, sizeof text, "%a %Y-%m-%d %H:%M:%SZ", &parts) != 0) {
        printf("  %s\n", text);
    }
}

/* One call: the next starts, up to four. It returns the answer. */
static uint8_t list_some(const uint8_t *record, uint8_t *cursor)
{
    uint64_t buffer[4];
    uint32_t made;
    size_t handed;
    uint8_t cause;
    uint8_t answer = yomaveludge_run(
        record, YOMAVELUDGE_RECORD_LENGTH, cursor, YOMAVELUDGE_CURSOR_LENGTH, buffer, 4, 100, &made, &handed, &cause);
    printf("%s", yomaveludge_meaning(answer));
    if (answer == YOMAVELUDGE_ENDED) {
        printf(": %s", yomaveludge_cause_meaning(cause));
    }
    printf("; moves %" PRIu32 ", handed out %zu\n", made, handed);
    for (size_t i = 0; i < handed; i++) {
        print_instant(buffer[i]);
    }
    return answer;
}

/* Says why a call was refused, if it was. */
static int is_refused(uint8_t answer)
{
    if (YOMAVELUDGE_REFUSED(answer)) {
        fprintf(stderr, "week_of_chart_starts: %s\n", yomaveludge_meaning(answer));
        return 1;
    }
    return 0;
}

int main(int argc, char **argv)
{
    if (argc != 2) {
        fprintf(stderr, "usage: week_of_chart_starts FILE-FOR-THE-CURSOR\n");
        return 2;
    }
    uint8_t record[YOMAVELUDGE_RECORD_LENGTH];
    uint8_t cursor[YOMAVELUDGE_CURSOR_LENGTH];
    if (is_refused(check_rule(record)) || is_refused(yomaveludge_fresh(record, sizeof record, cursor, sizeof cursor))) {
        return 1;
    }
    for (;;) {
        uint8_t answer = list_some(record, cursor);
        if (is_refused(answer)) {
            return 1;
        }
        if (answer == YOMAVELUDGE_ENDED) {
            return 0;
        }
        if (!save(argv[1], cursor) || !restore(argv[1], cursor)) {
            perror(argv[1]);
            return 1;
        }
    }
}
