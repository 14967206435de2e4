// From C++: the last Friday of each month at 05:00, and what a wrong rule is answered. An empty vector is an empty list.
#include <cstdint>
#include <cstdio>
#include <vector>

#include "yomaveludge.h"

struct Rule {
    std::uint8_t frequency;
    std::uint64_t until; // 0 for none
    std::vector<std::int16_t> nths;
    std::vector<std::int16_t> weekdays;
    std::vector<std::int16_t> hours;
};

// COUNT is 3, the start 2024-01-01T05:00:00Z, and every other list empty.
static std::uint8_t check(const Rule &rule, std::vector<std::uint8_t> &record)
{
    const std::vector<std::int16_t> none;
    return yomaveludge_check(
        rule.frequency, 1, 1, 3, rule.until != 0, rule.until, 0, 1704085200,
        none.data(), 0, none.data(), 0, none.data(), 0, none.data(), 0,
        rule.nths.data(), rule.nths.size(), rule.weekdays.data(), rule.weekdays.size(),
        rule.hours.data(), rule.hours.size(), none.data(), 0, none.data(), 0, none.data(), 0,
        record.data(), record.size());
}

static void list(const Rule &rule)
{
    std::vector<std::uint8_t> record(YOMAVELUDGE_RECORD_LENGTH);
    std::vector<std::uint8_t> cursor(YOMAVELUDGE_CURSOR_LENGTH);
    std::vector<std::uint64_t> buffer(8);
    std::uint32_t made = 0;
    std::size_t handed = 0;
    std::uint8_t cause = 0;
    std::uint8_t answer = check(rule, record);
    if (!YOMAVELUDGE_REFUSED(answer)) {
        answer = yomaveludge_fresh(record.data(), record.size(), cursor.data(), cursor.size());
    }
    if (!YOMAVELUDGE_REFUSED(answer)) {
        answer = yomaveludge_run(
            record.data(), record.size(), cursor.data(), cursor.size(), buffer.data(), buffer.size(), 30, &made, &handed, &cause);
    }
    std::printf("%d, %s\n", answer, yomaveludge_meaning(answer));
    for (std::size_t i = 0; i < handed; i++) {
        std::printf("  %llu\n", static_cast<unsigned long long>(buffer[i]));
    }
}

int main()
{
    list({YOMAVELUDGE_MONTHLY, 0, {-1}, {4}, {}});
    list({7, 0, {-1}, {4}, {}});
    list({YOMAVELUDGE_MONTHLY, 0, {-1}, {4}, {24}});
    list({YOMAVELUDGE_MONTHLY, 0, {-1}, {4}, {9, 8}});
    list({YOMAVELUDGE_WEEKLY, 0, {-1}, {4}, {}});
    list({YOMAVELUDGE_MONTHLY, 1711688400, {-1}, {4}, {}});
    std::vector<std::uint8_t> none;
    std::printf("%d for frequency 7, %d for a good rule: no record to write to\n",
        check({7, 0, {-1}, {4}, {}}, none), check({YOMAVELUDGE_MONTHLY, 0, {-1}, {4}, {}}, none));
    return 0;
}
