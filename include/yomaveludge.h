/* The due instants of a calendar rule, for C and C++ on x86-64 alone: 64-bit pointers and the System V calls, as on Linux.
 *
 * `examples/install PREFIX` puts this header, libyomaveludge.a and yomaveludge.pc under PREFIX. docs/PANEL.md is the page for
 * whoever builds a panel: power cuts, updates of the firmware, what a call costs.
 *
 * An instant is a count of UTC seconds since 1970-01-01T00:00:00Z, from 0 to 253402300799 (9999-12-31T23:59:59Z).
 * Weekdays are 0 to 6, Monday first.
 *
 * yomaveludge_check makes a record of a rule, yomaveludge_fresh the first cursor of a record, and yomaveludge_run lists
 * from a cursor on. A record and a cursor are bytes. Keep them, copy them, store them. The first byte is their version; what
 * stands in the others is not for callers, and may change with the library.
 *
 * Any bytes may be handed over. Bytes that hold no record are refused with 20, and bytes that hold no cursor of the record
 * with 21. But a changed byte can make another good record, or another good cursor: an ended cursor is good whatever its
 * numbers are. And nothing tells the cursors of two records apart. So store a cursor with the number of its rule, and with a
 * checksum.
 *
 * What is asked of the caller, and nothing else: each pointer is aligned for its type and reaches as many elements as the
 * length beside it says (one where there is no length); where that length is 0 it may be NULL. What a call may write overlaps
 * nothing else that is handed to it, and no one else writes to what is handed over until the call is back. Calls share
 * nothing, so they may be made from many threads.
 *
 * Every call returns. How long that takes is in the caller's hands: see yomaveludge_run.
 *
 * What stands under "Promise" is proved of the code, for every input, and says each byte and slot to the last;
 * docs/PROMISES.md names the theorem for each sentence.
 */
#ifndef YOMAVELUDGE_H
#define YOMAVELUDGE_H

#include <stddef.h>
#include <stdint.h>

#ifdef __cplusplus
extern "C" {
#endif

/* The version of this header and of the library that goes with it: one number, which goes up with each change that a caller
 * can see. */
#define YOMAVELUDGE_VERSION 3

/* New in version 3: the first week of a WEEKLY rule is the whole calendar week of the start, from the week start's day on. Its
 * days before the start count for BYSETPOS and for the place in a cursor; none is handed out. So a place means another one
 * than before, and the cursor's version is 2:
 *
 *   Every cursor kept from version 1 or 2 of the library is refused with 21, whatever its rule is, and an ended one too. None
 *   is converted. Take the fresh cursor, run from there, and pass over each instant that was acted on. The fresh cursor alone
 *   begins the listing again at the rule's start.
 *
 * A rule lists what it listed, unless it is WEEKLY, has BYSETPOS, and starts on another weekday than the week start. Such a
 * rule may list other instants in its first week, and with COUNT end earlier or later. A record's bytes and its version are
 * as they were. */

/* New in version 2: the check also refuses INTERVAL 0 and COUNT 0 (10), COUNT beside UNTIL (11), and lists beside a frequency
 * with which RFC 5545 forbids them (12). A rule that is still accepted has the same record, and lists what it listed. The
 * stored record of one that is refused now is refused with 20: check the rule anew, and show the number that it gets. */

/* The versions of the bytes of a record and of a cursor. Each goes up with each change of its layout or of its meaning; a
 * cursor's also where a rule that is accepted before and after would list other instants. Bytes of any other version are
 * refused, with 20 or 21. So no update of the library takes a place for another one, which could hand out an instant twice or
 * leave one out.
 *
 * Where bytes that were stored before an update are refused after it: check the rule anew, take the fresh cursor, run from
 * there, and pass over each instant that was acted on. Those are told by time, since instants rise. So a panel stores, in
 * bytes of its own, the rule as it gave it to the check, and the instant from which on nothing was acted on. */
#define YOMAVELUDGE_RECORD_VERSION 1
#define YOMAVELUDGE_CURSOR_VERSION 2

/* The lengths of a record and of a cursor, in bytes. */
#define YOMAVELUDGE_RECORD_LENGTH 2564
#define YOMAVELUDGE_CURSOR_LENGTH 22

/* Frequencies. */
enum {
    YOMAVELUDGE_YEARLY = 0,
    YOMAVELUDGE_MONTHLY = 1,
    YOMAVELUDGE_WEEKLY = 2,
    YOMAVELUDGE_DAILY = 3,
    YOMAVELUDGE_HOURLY = 4,
    YOMAVELUDGE_MINUTELY = 5,
    YOMAVELUDGE_SECONDLY = 6
};

/* The answers. Each number means the same whichever call gives it. */

/* What yomaveludge_check and yomaveludge_fresh answer where they refuse nothing. */
#define YOMAVELUDGE_ACCEPTED 0

/* Refusals. The lowest number that applies is given. A refused call leaves every byte and slot as it was. */
enum {
    YOMAVELUDGE_FREQUENCY_ABOVE = 1,  /* the frequency is above 6 */
    YOMAVELUDGE_WEEK_START_ABOVE = 2, /* the week start is above 6 */
    YOMAVELUDGE_START_OUT = 3,        /* the start is out of range */
    YOMAVELUDGE_UNTIL_OUT = 4,        /* UNTIL is out of range */
    YOMAVELUDGE_ENTRY_OUT = 5,        /* a list entry is outside its range, or BYDAY's two lists differ in length */
    YOMAVELUDGE_NOT_RISING = 6,       /* a list doesn't rise strictly */
    YOMAVELUDGE_MIXED_DAYS = 7,       /* BYDAY has entries with n = 0 and with n not 0 */
    YOMAVELUDGE_NTH_MISPLACED = 8,    /* n not 0 in BYDAY, with BYWEEKNO or a frequency neither YEARLY nor MONTHLY */
    YOMAVELUDGE_POSITIONS_ALONE = 9,  /* BYSETPOS, and every other list empty */
    YOMAVELUDGE_NOUGHT = 10,          /* INTERVAL is 0, or COUNT is given and is 0 */
    YOMAVELUDGE_COUNT_AND_UNTIL = 11, /* COUNT and UNTIL are both given */
    YOMAVELUDGE_LIST_MISPLACED = 12,  /* BYWEEKNO outside YEARLY, BYYEARDAY with MONTHLY to DAILY, or BYMONTHDAY with WEEKLY */
    YOMAVELUDGE_BAD_RECORD = 20,      /* the bytes are no record that an accepted check yields, or have another length */
    YOMAVELUDGE_BAD_CURSOR = 21       /* the bytes are no cursor that is well formed for the record, or have another length */
};

/* Why a run has stopped, where it isn't refused. */
enum {
    YOMAVELUDGE_MORE = 100,    /* the buffer is full */
    YOMAVELUDGE_LIMITED = 101, /* every move allowed is made; the next call goes on from there */
    YOMAVELUDGE_ENDED = 102    /* the listing is at its end: see the cause */
};

/* Whether an answer is a refusal, of any of the three calls: neither "accepted" nor a stop. */
#define YOMAVELUDGE_REFUSED(answer) ((answer) - 1u < YOMAVELUDGE_MORE - 1u)

/* Why a listing is at its end. A cause is no answer: it has numbers of its own. */
enum {
    YOMAVELUDGE_RUNNING = 0,     /* it isn't */
    YOMAVELUDGE_BY_COUNT = 1,    /* COUNT instants were handed out */
    YOMAVELUDGE_BY_INTERVAL = 2, /* no listing ends so any more; a cursor that says it comes back as it is */
    YOMAVELUDGE_BY_UNTIL = 3,    /* the next one is after UNTIL */
    YOMAVELUDGE_BY_NO_TICK = 4,  /* no later period can have one, however far the calendar runs */
    YOMAVELUDGE_BY_RANGE = 5     /* the next period begins after 9999 */
};

/* The meaning of an answer, of any of the three calls. */
static inline const char *yomaveludge_meaning(uint8_t answer)
{
    switch (answer) {
    case YOMAVELUDGE_ACCEPTED: return "accepted";
    case YOMAVELUDGE_FREQUENCY_ABOVE: return "refused: the frequency is above 6";
    case YOMAVELUDGE_WEEK_START_ABOVE: return "refused: the week start is above 6";
    case YOMAVELUDGE_START_OUT: return "refused: the start is out of range";
    case YOMAVELUDGE_UNTIL_OUT: return "refused: UNTIL is out of range";
    case YOMAVELUDGE_ENTRY_OUT: return "refused: a list entry is outside its range, or BYDAY's two lists differ in length";
    case YOMAVELUDGE_NOT_RISING: return "refused: a list doesn't rise strictly";
    case YOMAVELUDGE_MIXED_DAYS: return "refused: BYDAY has entries with n = 0 and with n not 0";
    case YOMAVELUDGE_NTH_MISPLACED: return "refused: n not 0 in BYDAY, with BYWEEKNO or a frequency neither YEARLY nor MONTHLY";
    case YOMAVELUDGE_POSITIONS_ALONE: return "refused: BYSETPOS, and every other list empty";
    case YOMAVELUDGE_NOUGHT: return "refused: INTERVAL is 0, or COUNT is given and is 0";
    case YOMAVELUDGE_COUNT_AND_UNTIL: return "refused: COUNT and UNTIL are both given";
    case YOMAVELUDGE_LIST_MISPLACED:
        return "refused: BYWEEKNO outside YEARLY, BYYEARDAY with MONTHLY, WEEKLY or DAILY, or BYMONTHDAY with WEEKLY";
    case YOMAVELUDGE_BAD_RECORD: return "refused: the bytes are no record of this version that an accepted check yields";
    case YOMAVELUDGE_BAD_CURSOR: return "refused: the bytes are no cursor of this version that is well formed for the record";
    case YOMAVELUDGE_MORE: return "stopped: the buffer is full";
    case YOMAVELUDGE_LIMITED: return "stopped: every move allowed is made";
    case YOMAVELUDGE_ENDED: return "stopped: the listing is at its end";
    default: return "no answer of this version";
    }
}

/* The meaning of a cause. */
static inline const char *yomaveludge_cause_meaning(uint8_t cause)
{
    switch (cause) {
    case YOMAVELUDGE_RUNNING: return "not at its end";
    case YOMAVELUDGE_BY_COUNT: return "COUNT instants were handed out";
    case YOMAVELUDGE_BY_INTERVAL: return "the cursor given says so, by INTERVAL 0";
    case YOMAVELUDGE_BY_UNTIL: return "the next instant is after UNTIL";
    case YOMAVELUDGE_BY_NO_TICK: return "no later period can have an instant";
    case YOMAVELUDGE_BY_RANGE: return "the next period begins after 9999";
    default: return "no cause of this version";
    }
}

/* The check of a rule.
 *
 *   interval         INTERVAL, from 1 on; 1 where a rule doesn't name it
 *   counted, count   COUNT: absent where counted is 0, else count, from 1 on
 *   bounded, until   UNTIL: absent where bounded is 0, else the instant until; a rule has COUNT or UNTIL or neither
 *   the lists        BYMONTH 1..12; BYMONTHDAY -31..-1 and 1..31; BYYEARDAY -366..-1 and 1..366; BYWEEKNO -53..-1 and
 *                    1..53; BYDAY as two lists side by side, n (-53..53, 0 for every) and weekday (0..6); BYHOUR 0..23;
 *                    BYMINUTE and BYSECOND 0..59; BYSETPOS -366..-1 and 1..366. Each may be empty, and rises strictly;
 *                    BYDAY by n, then weekday. BYWEEKNO goes with YEARLY alone, BYYEARDAY not with MONTHLY, WEEKLY and
 *                    DAILY, and BYMONTHDAY not with WEEKLY.
 *
 * Promise: it answers the lowest of 1 to 12 that applies; where none does, 20 if record_length isn't
 * YOMAVELUDGE_RECORD_LENGTH, else 0. With 0 the record's bytes are the rule, filled in from its start; with any other number
 * they are as they were.
 */
uint8_t yomaveludge_check(
    uint8_t frequency, uint16_t interval, uint8_t counted, uint32_t count, uint8_t bounded, uint64_t until,
    uint8_t week_start, uint64_t start,
    const int16_t *bymonth, size_t bymonth_length,
    const int16_t *bymonthday, size_t bymonthday_length,
    const int16_t *byyearday, size_t byyearday_length,
    const int16_t *byweekno, size_t byweekno_length,
    const int16_t *byday_n, size_t byday_n_length,
    const int16_t *byday_weekday, size_t byday_weekday_length,
    const int16_t *byhour, size_t byhour_length,
    const int16_t *byminute, size_t byminute_length,
    const int16_t *bysecond, size_t bysecond_length,
    const int16_t *bysetpos, size_t bysetpos_length,
    uint8_t *record, size_t record_length);

/* The first cursor of a record.
 *
 * Promise: it answers 20 where the record's bytes are none that an accepted check yields; else 21 where cursor_length isn't
 * YOMAVELUDGE_CURSOR_LENGTH; else 0. With 0 the cursor's bytes are the fresh cursor, which is running, with nothing handed
 * out. With any other number they are as they were.
 */
uint8_t yomaveludge_fresh(const uint8_t *record, size_t record_length, uint8_t *cursor, size_t cursor_length);

/* One run, from a cursor on: due instants, rising, into the buffer, of any length, with a budget of moves from period to
 * period.
 *
 * Promise: it answers 20 where the record's bytes are none that an accepted check yields; else 21 where the cursor's bytes
 * are none that is well formed for the record; and then the cursor's bytes and the buffer are as they were, and *moves_made,
 * *handed_out and *cause are 0. Else it answers a stop:
 *   100 (More)     the buffer is full: *handed_out is its length
 *   101 (Limited)  *moves_made is the budget
 *   102 (Ended)    *cause says why; from such a cursor nothing is handed out any more
 * The first *handed_out slots hold the next due instants, and the others are as they were; *moves_made is at most the
 * budget; *cause is 0 unless ended. The cursor's bytes are those of the place reached: the next run goes on there, in this
 * process or another. From the fresh cursor on, however the calls are cut, they hand out the instants that satisfy the rule,
 * each once, rising, with none left out up to the last. An end by Count has handed out COUNT of them; after any other end
 * none is left.
 *
 * Cost, as measured on one machine (docs/PANEL.md has the table; examples/costs.c measures yours): a call takes up to 0.01 ms,
 * and up to 0.6 ms in the period of the start; an instant up to 0.0001 ms; a move up to 0.01 ms, but up to 0.3 ms with SECONDLY
 * and a rare time. So a budget of 30 kept every rule's call within 10 ms, and one of 3,000 within 1 s; without SECONDLY, 1,000
 * and 100,000. By what a move took, the largest budget would take a quarter of an hour in one call with
 * SECONDLY;BYSECOND=0;BYSETPOS=2, and ten minutes with SECONDLY;BYMONTH=2;BYMONTHDAY=30;BYHOUR=23.
 */
uint8_t yomaveludge_run(
    const uint8_t *record, size_t record_length, uint8_t *cursor, size_t cursor_length,
    uint64_t *buffer, size_t buffer_length, uint32_t moves,
    uint32_t *moves_made, size_t *handed_out, uint8_t *cause);

#ifdef __cplusplus
}
#endif

#endif
