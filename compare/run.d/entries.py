"""A named rule for each entry of docs/DIFFERENCES.md under "From the Rust": when it applies, and what it explains."""
import re
from dataclasses import dataclass
from functools import cached_property
from itertools import islice

from listings import COMPARED, DAY, ENDED, GAVE_UP, LAST, Listing, first_difference, model, rust_listing
from moves import CARRIED, NEVER_MET, SKIPPED, wrong_moves
from programs import COMPARE, SLOW

YEARLY, MONTHLY, WEEKLY, DAILY, HOURLY, MINUTELY, SECONDLY = range(7)

CARRY = "MINUTELY and SECONDLY leave the grid when a carry meets a list"
EARLY_END = "MINUTELY and SECONDLY end early when a carry never meets a list"
SKIPPED_DAY = "MINUTELY and SECONDLY with a time list lose days when a day is skipped"
JANUARY = "The first days of January get the wrong week number"
DECEMBER = "The last days of December have no week number from the end"
MONTH = "MONTHLY stops early when INTERVAL is near 65535"
ROUNDS = "The crate gives up after 100,000 rounds, for good"
PUBLIC = "The crate's public iterator keeps the limit to itself"
YEAR_10000 = "The crate runs on through the year 10000"
FIRST_WEEK = "The first week is whole"
LAST_WEEK = "The last week of 9999 is not cut"
NTH_FROM_WEEKLY = "n in BYDAY makes every day pass from WEEKLY on"
NTH_BESIDE_WEEKS = "n in BYDAY beside BYWEEKNO"
MIXED = "BYDAY with n and without"
ORDER = "Lists in any order, and with entries twice"
POSITIONS_ALONE = "BYSETPOS alone"
POSITIONS_OVERLOOKED = "BYSETPOS beside negative month days, SECONDLY"
MONTH_DAYS_RANGE = "BYMONTHDAY 0 and below -31"
NOUGHT = "INTERVAL 0 and COUNT 0"
COUNT_AND_UNTIL = "COUNT with UNTIL"
WEEKLY_MONTH_DAYS = "WEEKLY with negative month days"
POSITIONS_RANGE = "The range of BYSETPOS"
NTH_RANGE = "The range of n in BYDAY"
UNTIL_BEFORE = "UNTIL before the start"
OUT_OF_RANGE = "Starts and UNTIL out of range"


# Where both list, and list otherwise. Each rule works out whether the Rust goes wrong at the first difference as the entry says.

@dataclass
class Case:
    """Two listings of a rule, and their first difference."""
    rule: model.Rule
    ours: Listing
    theirs: Listing
    difference: int

    @cached_property
    def wrong_moves(self):
        return wrong_moves(self.rule, self.theirs, self.difference) if self.rule.freq in (MINUTELY, SECONDLY) else set()


def never_met(at, carry, size, entries):
    """Whether adding a carry again and again meets no entry of a list."""
    return carry > 0 and entries != [] and not any((at + n * carry) % size in entries for n in range(1, size + 1))


def first_carry_never_meets(rule):
    """The early end's condition in the page's words."""
    hour, minute, second = rule.start // 3600 % 24, rule.start // 60 % 60, rule.start % 60
    minutes = rule.interval if rule.freq == MINUTELY else (second + rule.interval) // 60
    hours = (minute + minutes) // 60
    in_minutes = rule.freq == SECONDLY and never_met(minute, minutes, 60, rule.byminute)
    return in_minutes or never_met(hour, hours, 24, rule.byhour)


def weeks_of_last_year(year, wkst):
    """As yearinfo.rs counts the weeks of the year before."""
    before, new_year = (model.weekday(model.first_day(y)) for y in (year - 1, year))
    if (wkst - before) % 7 >= 4:
        days = model.year_length(year - 1) + (before - wkst) % 7
    else:
        days = model.year_length(year) - (wkst - new_year) % 7
    return 52 + days % 7 // 4


def january_numbers(day, wkst):
    """The Rust's week numbers of a day of January whose week is the last of the year before; else ours."""
    numbers = model.week_number(day, wkst)
    is_last = model.month_and_month_day(day)[0] == 1 and numbers[0] > 50
    return (weeks_of_last_year(model.year_of(day), wkst), -1) if is_last else numbers


def december_numbers(day, wkst):
    """The Rust's week numbers of a day of December whose week is the first of the next year; else ours."""
    numbers = model.week_number(day, wkst)
    is_first = model.month_and_month_day(day)[0] == 12 and numbers[0] == 1
    return (1,) if is_first else numbers


def misnumbered(case, rust_numbers):
    """Whether BYWEEKNO answers otherwise by the Rust's numbers: of the difference's day, or with BYSETPOS of a day of its year."""
    rule, day = case.rule, case.difference // DAY
    if rule.freq != YEARLY:
        return False
    year = model.year_of(day)
    days = range(model.first_day(year), model.first_day(year + 1)) if rule.bysetpos else [day]
    both = ((model.week_number(d, rule.wkst), rust_numbers(d, rule.wkst)) for d in days)
    return any(model.meets(rule.byweekno, numbers) != model.meets(rule.byweekno, rusts) for numbers, rusts in both)


def months_of(instant):
    """The month of an instant, counted from year 0."""
    day = instant // DAY
    return 12 * model.year_of(day) + model.month_and_month_day(day)[0] - 1


def last_month(rule):
    """The first month visited whose number and INTERVAL are above 65535 together, or one after 9999."""
    months = months_of(rule.start)
    while months % 12 + 1 + rule.interval <= 65535 and months < 120000:
        months += rule.interval
    return months


def month(case):
    """The Rust's listing ends with that month, and is a beginning of ours."""
    begins = case.theirs.instants == case.ours.instants[:len(case.theirs.instants)]
    is_near = case.rule.freq == MONTHLY and case.rule.interval + 12 > 65535
    return is_near and case.theirs.stop == ENDED and begins and months_of(case.difference) > last_month(case.rule)


def counts_days(rule, first, last):
    """Whether BYSETPOS counts in weeks, and one of these days of a week passes."""
    return rule.freq == WEEKLY and rule.bysetpos != [] and any(True for _ in model.Days(filled(rule)).between(first, last))


def first_week(case):
    """A day of the start's week, before the start's own, passes, and the difference is in that week."""
    start_day = case.rule.start // DAY
    begin = model.week_begin(start_day, case.rule.wkst)
    return case.difference // DAY < begin + 7 and counts_days(case.rule, begin, start_day - 1)


def last_week(case):
    """A day of the last week, after 9999, passes, and the difference is in that week."""
    begin = model.week_begin(model.LAST_DAY, case.rule.wkst)
    return case.difference // DAY >= begin and counts_days(case.rule, model.LAST_DAY + 1, begin + 6)


# entry: its rule, and the places in the Rust that compare/differences.d/explain can mend. After one wrong move others follow, so
# the moves below DAILY are mended as a whole.
MOVES = {"carry", "skipped-day"}
LISTED_OTHERWISE = {
    CARRY: (lambda case: CARRIED in case.wrong_moves, MOVES),
    EARLY_END: (lambda case: NEVER_MET in case.wrong_moves and first_carry_never_meets(case.rule), MOVES),
    SKIPPED_DAY: (lambda case: SKIPPED in case.wrong_moves, MOVES),
    JANUARY: (lambda case: misnumbered(case, january_numbers), {"last-year"}),
    DECEMBER: (lambda case: misnumbered(case, december_numbers), {"from-the-end"}),
    MONTH: (month, {"month"}),
    FIRST_WEEK: (first_week, {"first-week"}),
    LAST_WEEK: (last_week, {"last-week"}),
}


def may_go_wrong(rule):
    """Whether the rule has the parts that one of these entries needs."""
    has_times = rule.byhour or rule.byminute or rule.freq == SECONDLY and rule.bysecond
    parts = {
        YEARLY: rule.byweekno != [], MONTHLY: rule.interval + 12 > 65535, WEEKLY: rule.bysetpos != [],
        MINUTELY: bool(has_times), SECONDLY: bool(has_times),
    }
    return parts.get(rule.freq, False)


def places(entries):
    return frozenset().union(*(LISTED_OTHERWISE[entry][1] for entry in entries))


SECONDS_WHERE_IT_AGREES = 2


class Explainer:
    """Says which entry explains a difference: the Rust, mended where the entry says, has to list what we list."""

    def __init__(self, mended):
        self.mended = mended
        self.mended_too = self.not_waited_for = self.both_ways = 0

    def mended_listing(self, pair, difference, entries):
        """What the Rust lists, mended in the places of these entries; nothing where that stops before the difference."""
        for words in ("", " limited=0"):
            listing = rust_listing(pair.rule, self.mended.ask(pair.rust_line + words, places(entries)))
            if listing is None or listing.last >= difference:
                return listing
        return None

    def agrees_mended(self, pair):
        """Where the two agree: whether the Rust, mended in every place, does too. Else we share an error of the Rust's.

        Mended it looks at more times in each round. Where it gives up it may take too long for that, and isn't waited for.
        """
        if not may_go_wrong(pair.rule):
            return True
        answer = self.mended.ask(pair.rust_line, places(LISTED_OTHERWISE), SECONDS_WHERE_IT_AGREES)
        if answer == SLOW:
            self.not_waited_for += 1
            return True
        self.mended_too += 1
        return first_difference(pair.ours, rust_listing(pair.rule, answer)) is None

    def needed(self, pair):
        """The entries that explain the first difference, then the next that is left, until none is; or nothing."""
        found, theirs, difference = [], pair.theirs, pair.difference
        while difference is not None:
            case = Case(pair.rule, pair.ours, theirs, difference)
            new = [e for e, (applies, _) in LISTED_OTHERWISE.items() if e not in found and applies(case)]
            if not new:
                return None
            found += new
            theirs = self.mended_listing(pair, difference, found)
            if theirs is None:
                return None
            difference = first_difference(pair.ours, theirs)
        return found

    def alone(self, pair, entries):
        """Whether the Rust, mended in every other place, answers as it does without. Asked of the deep ones."""
        if not pair.deep:
            return True
        self.both_ways += 1
        return self.mended.ask(pair.rust_line, places(LISTED_OTHERWISE) - places(entries)) == pair.rust_answer

    def entries(self, pair):
        """The entries that explain how two listings differ; none where they don't."""
        found = self.needed(pair)
        return found if found and self.alone(pair, found) else []


# Where the Rust gives up. It has looked at 99,999 periods without an instant: exact where each k is a round.

def gives_up_rightly(rule, theirs):
    if theirs.stop != GAVE_UP or rule.freq not in (WEEKLY, DAILY):
        return theirs.stop == GAVE_UP
    year, month_, day = theirs.at[:3]
    at = model.first_day(year) + sum(model.month_lengths(year)[:month_ - 1]) + day - 1
    last = theirs.instants[-1] if theirs.instants else rule.start
    first, length = last // DAY, 1
    if rule.freq == WEEKLY:
        first, length = model.week_begin(first, rule.wkst), 7
    return at - first == (100000 if theirs.instants else 99999) * length * rule.interval


# What the Rust alone refuses: each entry's rule is exact.

HIGHEST_POSITION = (366, 31, 53, 366, 24, 60, 60)
NTH = ((-52, 53), (-4, 5), (-7, 8), (-52, 53), (-3, 4), (-8, 9), (-8, 9))


def position_lists(rule):
    """The lists beside BYSETPOS that the Rust sees there."""
    return [key for key in model.LISTS if key not in ("bysetpos", "bymonthday") and getattr(rule, key)]


def positions_seem_alone(rule):
    seen = position_lists(rule) or any(day > 0 for day in rule.bymonthday)
    return rule.freq == SECONDLY and rule.bysetpos != [] and not seen


REFUSED_BY_THE_RUST = {
    UNTIL_BEFORE: lambda rule: rule.until is not None and rule.until < rule.start,
    POSITIONS_RANGE: lambda rule: any(abs(p) > HIGHEST_POSITION[rule.freq] for p in rule.bysetpos),
    POSITIONS_OVERLOOKED: positions_seem_alone,
    NTH_RANGE: lambda rule: any(n != 0 and not NTH[rule.freq][0] <= n <= NTH[rule.freq][1] for n, _ in rule.byday),
}


def refused_by_the_rust(rule):
    return [entry for entry, applies in REFUSED_BY_THE_RUST.items() if applies(rule)]


# What we alone refuse: the entry says as what other rule the Rust reads it. Nothing where no rule of ours says it.

EVERY_DAY = [(0, weekday) for weekday in range(7)]
# 30 February of one year: nothing is listed, and that without a move, so that the Rust's listing is compared to its end
NOTHING = {
    "freq": YEARLY, "interval": 65535, "count": None, "until": None,
    **{key: [] for key in model.LISTS}, "bymonth": [2], "bymonthday": [30],
}


def without_odd_month_days(rule):
    left = [day for day in rule.bymonthday if day > 0 or -31 <= day < 0]
    nothing_matches = not left and any(day < -31 for day in rule.bymonthday)
    return NOTHING if nothing_matches else {"bymonthday": left}


def sorted_lists(rule):
    return {key: sorted(set(getattr(rule, key))) for key in model.LISTS}


def both_kinds(rule):
    """A day passes both kinds: those with n whose weekday stands there without n. From WEEKLY on n isn't looked at."""
    every = [pair for pair in rule.byday if pair[0] == 0]
    if rule.freq >= WEEKLY:
        return {"byday": every}
    nths = [pair for pair in rule.byday if pair[0] != 0 and (0, pair[1]) in every]
    return {"byday": nths} if nths else NOTHING


def nth_as_year_days(rule):
    """One nth weekday of the year is that weekday among seven year days."""
    if len(rule.byday) != 1 or rule.bymonth or rule.byyearday or rule.freq != YEARLY:
        return None
    (n, weekday), = rule.byday
    first = 7 * (n - 1) + 1 if n > 0 else 7 * n
    days = [day for day in range(first, first + 7) if -366 <= day <= 366]
    return {"byday": [(0, weekday)], "byyearday": days}


def negative_days_weekly(rule):
    return rule.freq == WEEKLY and rule.bymonthday != [] and all(day < 0 for day in rule.bymonthday)


def day_by_day(rule):
    """Every week, and of each week all: the same as DAILY."""
    return {"freq": DAILY} if rule.interval == 1 and not rule.bysetpos else None


def first_end(rule):
    """COUNT or UNTIL alone, the one that comes first. Of COUNT no more matters than is compared."""
    listed = sum(1 for _ in islice(model.satisfying(filled(rule)), min(rule.count, COMPARED)))
    return {"until": None} if listed == rule.count else {"count": None}


def has_nth(rule):
    return any(n != 0 for n, _ in rule.byday)


def is_mixed(rule):
    return has_nth(rule) and any(n == 0 for n, _ in rule.byday)


def odd_month_days(rule):
    return any(day == 0 or -128 <= day < -31 for day in rule.bymonthday)


# entry: when it applies, and what it changes in the rule; the order is that of the changes
READ_OTHERWISE = {
    NOUGHT: (lambda rule: rule.interval == 0 or rule.count == 0, lambda rule: NOTHING),
    MONTH_DAYS_RANGE: (odd_month_days, without_odd_month_days),
    ORDER: (lambda rule: any(not model.rises(getattr(rule, key)) for key in model.LISTS), sorted_lists),
    MIXED: (is_mixed, both_kinds),
    NTH_FROM_WEEKLY: (lambda rule: rule.freq >= WEEKLY and has_nth(rule), lambda rule: {"byday": EVERY_DAY}),
    NTH_BESIDE_WEEKS: (lambda rule: has_nth(rule) and rule.byweekno != [], nth_as_year_days),
    POSITIONS_ALONE: (lambda rule: model.refusal(rule) == 9, lambda rule: {"bysecond": [rule.start % 60]}),
    OUT_OF_RANGE: (lambda rule: rule.until is not None and rule.until > LAST, lambda rule: {"until": None}),
    WEEKLY_MONTH_DAYS: (negative_days_weekly, day_by_day),
    COUNT_AND_UNTIL: (lambda rule: rule.count is not None and rule.until is not None, first_end),
}


def as_the_rust_reads(rule):
    """The entries that apply to a rule that we refuse, and the rule that the Rust makes of it, where we have one."""
    entries, changed = [], model.Rule(written(rule))
    for entry, (applies, change) in READ_OTHERWISE.items():
        if applies(changed):
            entries.append(entry)
            changes = change(changed)
            if changes is None:
                return entries, None
            vars(changed).update(changes)
    if rule.start > LAST:
        return entries + [OUT_OF_RANGE], None
    return entries, None if model.refusal(changed) else written(changed)


def filled(rule):
    """The rule filled in; itself it stays as it is."""
    copy = model.Rule(written(rule))
    copy.fill_in()
    return copy


def written(rule):
    """A rule in the words of the line program."""
    words = [f"{key}={getattr(rule, key)}" for key in model.NUMBERS if key != "room" and getattr(rule, key) is not None]
    for key in model.LISTS:
        entries = getattr(rule, key)
        if entries:
            words.append(f"{key}=" + ",".join(f"{e[0]}:{e[1]}" if key == "byday" else str(e) for e in entries))
    return " ".join(words)


def named_entries():
    own = {ROUNDS, PUBLIC, YEAR_10000, OUT_OF_RANGE}
    return own | LISTED_OTHERWISE.keys() | REFUSED_BY_THE_RUST.keys() | READ_OTHERWISE.keys()


def page_sections():
    """The text under each entry of the page."""
    page = (COMPARE.parent / "docs" / "DIFFERENCES.md").read_text()
    page = page.partition("## From the Rust")[2].partition("## From the RFC")[0]
    _, *parts = re.split(r"^#+ (.*)$", page, flags=re.MULTILINE)
    headings = re.findall(r"^#### (.*)$", page, re.MULTILINE)
    return {heading: text for heading, text in zip(parts[::2], parts[1::2]) if heading in headings}


def page_entries():
    return set(page_sections())


def page_rules(entry):
    """The rules of an entry's blocks, without their room."""
    return re.findall(r"^read  (.*?)(?: room=\d+)?$", page_sections()[entry], re.MULTILINE)
