"""The wrong versions: each changes a definition in specs/, and names the case of crates/grid that has to refuse it."""
import re
from collections import namedtuple

# A place in specs/ whose text is there once, and what stands there instead; `uses` are names that the new text needs.
Edit = namedtuple("Edit", "path old new uses")
# `apart`: the frequency or the list that the version is wrong at, which its case alone has; None where it is wrong at more.
Version = namedtuple("Version", "name edit module case apart", defaults=[None])

FREQUENCIES = ("Yearly", "Monthly", "Weekly", "Daily", "Hourly", "Minutely", "Secondly")
SAME = "Rattle.rule.specs.Filling.{same}"
NOT = "Rattle.std.specs.Prelude.{not}"
OR = "Rattle.std.specs.Prelude.{◌||◌}"
AND = "Rattle.std.specs.Prelude.{◌&&◌}"
IF = "Rattle.std.specs.Prelude.{if◌then◌else◌}"
FREQUENCY = "Rattle.rule.specs.declared.rrule.Frequency.{Frequency}"
PLUS = "Rattle.std.specs.Prelude.{◌+◌}"
SUC = "Rattle.std.specs.Prelude.{suc}"
LEB = "Rattle.std.specs.Prelude.{leb}"
LTB = "Rattle.std.specs.Prelude.{ltb}"
EQB = "Rattle.std.specs.Prelude.{eqb}"
MAX = "Rattle.std.specs.Prelude.{max}"
IS_EMPTY = "Rattle.rule.specs.Lists.{is_empty}"
EARLY = "Rattle.machine.specs.Run.{early}"

DAYS, TIMES, CANDIDATES, MOVES = "rule/Days", "rule/Times", "rule/Candidates", "rule/Moves"
PERIODS, RUN, LISTS, REFUSALS, FILLING = "rule/Periods", "rule/Run", "rule/Lists", "rule/Refusals", "rule/Filling"
CURSORS, GIVEN, FAULTS, CALLS = "machine/Cursors", "machine/Given", "machine/Faults", "machine/Calls"
TURNS, WALKS = "machine/Run", "machine/Compute"


# The lists that are refused with these frequencies: no rule shows how they are read there.
REFUSED_WITH = {"week-number": FREQUENCIES[1:], "year-day": FREQUENCIES[1:4], "month-day": FREQUENCIES[2:3]}


def at(frequency):
    return f"same r.freq Frequency.{frequency}"


def may_stand(name, frequency):
    return frequency not in REFUSED_WITH.get(name, ())


# A list passed over at a frequency: its test there always passes.

DAY_TESTS = {
    "month": "month_passes r date)",
    "month-day": "monthday_passes r date)",
    "year-day": "yearday_passes r date.year d)",
    "week-number": "week_passes r date.year d)",
    "day": "weekday_passes r date d)",
}
TIME_TESTS = {
    "hour": "is_in hours r.byhour (pos h)",
    "minute": "is_in minutes r.byminute (pos m)",
    "second": "is_in seconds r.bysecond (pos s)",
}
KEPT = "keeps r.bysetpos (candidates r k)"


def passed_over():
    for freq in FREQUENCIES:
        for name, test in DAY_TESTS.items():
            if may_stand(name, freq):
                yield Version(f"{freq}: {name} passed over", Edit(DAYS, test, f"{at(freq)} || {test}", []), freq, f"by-{name}", freq)
        for name, test in TIME_TESTS.items():
            yield Version(f"{freq}: {name} passed over", Edit(TIMES, test, f"({at(freq)} || {test})", [SAME]), freq, f"by-{name}", freq)
        case = "by-position-beyond" if freq == "Secondly" else "by-position"
        edit = Edit(CANDIDATES, KEPT, f"(if {at(freq)} then candidates r k else {KEPT})", [SAME])
        yield Version(f"{freq}: positions passed over", edit, freq, case, freq)


# One end of a list that has two: at a frequency the other end alone is asked.

ENDS = {
    "month-day": (
        "either_end monthdays r.bymonthday date.day date.length",
        "is_in monthdays r.bymonthday (pos date.day)",
        "is_in monthdays r.bymonthday (neg_ℤ (pos (date.length + 1 - date.day)))",
    ),
    "year-day": (
        "either_end yeardays r.byyearday (yearday y d) (year_length y)",
        "is_in yeardays r.byyearday (pos (yearday y d))",
        "is_in yeardays r.byyearday (neg_ℤ (pos (year_length y + 1 - yearday y d)))",
    ),
    "week-number": (
        "number_passes r.byweekno (week_number r.wkst own d) (weeks_in r.wkst own)",
        "is_in weeknos r.byweekno (pos (week_number r.wkst own d))",
        "is_in weeknos r.byweekno (pos (week_number r.wkst own d) -ℤ pos (weeks_in r.wkst own) -ℤ pos 1)",
    ),
}
KEPT_WHOLE = "unfoldable pub kept : Rule → ℕ → List ℕ\nunfolding keeps candidates\nkept r k = " + KEPT
ONE_END = """unfoldable pub one_end : List Bool → ℕ → ℕ → List ℕ → List ℕ
unfolding is_in
one_end s n j [] = []
one_end s n j (x ∷ xs) = only (is_in positions s ({place})) (x ∷ []) ++ one_end s n (j + 1) xs

unfoldable pub kept : Rule → ℕ → List ℕ
unfolding keeps candidates one_end
kept r k =
    if {there} && not (is_empty r.bysetpos)
    then one_end r.bysetpos (length (candidates r k)) 0 (candidates r k)
    else keeps r.bysetpos (candidates r k)"""


def one_ended():
    for freq in FREQUENCIES:
        for name, (whole, forward, backward) in ENDS.items():
            if not may_stand(name, freq):
                continue
            for told, rest, case in (("not forward", backward, f"by-{name}"), ("not from the end", forward, f"by-{name}-from-end")):
                yield Version(f"{freq}: {name} {told}", Edit(DAYS, whole, f"(if {at(freq)} then {rest} else {whole})", []), freq, case, freq)
        for told, place, case in (("not forward", "neg_ℤ (pos (n - j))", "by-position"), ("not from the end", "pos (j + 1)", "by-position-from-end")):
            new = ONE_END.format(place=place, there=at(freq))
            yield Version(f"{freq}: positions {told}", Edit(CANDIDATES, KEPT_WHOLE, new, [SAME, NOT, AND]), freq, case, freq)


OF_YEAR = "nth_passes r.byday (weekday d) (yearday date.year d) (year_length date.year)"
OF_MONTH = "nth_passes r.byday (weekday d) date.day date.length"


def nth(place, length, forward):
    n = f"pos (nth_of ({place}))" if forward else f"neg_ℤ (pos (nth_from_end ({place}) ({length})))"
    return f"is_pair_in r.byday ({n}) (pos (weekday d))"


def nths():
    for forward, case in ((True, "nth-of-{}-from-end"), (False, "nth-of-{}")):
        told = "not from the end" if forward else "not forward"
        of_year = nth("yearday date.year d", "year_length date.year", forward)
        of_month = nth("date.day", "date.length", forward)
        yield Version(f"Yearly: nth of the year {told}", Edit(DAYS, f"then {OF_YEAR}", f"then {of_year}", []), "Yearly", case.format("year"))
        for freq in ("Yearly", "Monthly"):
            new = f"else (if {at(freq)} then {of_month} else {OF_MONTH})"
            yield Version(f"{freq}: nth of the month {told}", Edit(DAYS, f"else {OF_MONTH}", new, []), freq, case.format("month"), freq)
    yield Version("Yearly: nth of the month for the year", Edit(DAYS, f"then {OF_YEAR}", f"then {OF_MONTH}", []), "Yearly", "nth-of-year")
    for freq in ("Yearly", "Monthly"):
        new = f"else (if {at(freq)} then {OF_YEAR} else {OF_MONTH})"
        yield Version(f"{freq}: nth of the year for the month", Edit(DAYS, f"else {OF_MONTH}", new, []), freq, "nth-of-month", freq)


# Moves below DAILY: a tick's test dropped, and the later date.

def moves():
    hour, minute, second = "hour_passes r (hour_of s)", "minute_passes r (minute_of s)", "second_passes r (second_of s)"
    ticks = {
        "Hourly": (hour, {"hour": "true"}),
        "Minutely": (f"{hour} && {minute}", {"hour": minute, "minute": hour}),
        "Secondly": ("time_passes r s", {"hour": f"{minute} && {second}", "minute": f"{hour} && {second}", "second": f"{hour} && {minute}"}),
    }
    for freq, (whole, without) in ticks.items():
        begins = f"tick_passes r Frequency.{freq} s = "
        for name, rest in without.items():
            yield Version(f"{freq}: a move by any {name}", Edit(TIMES, begins + whole, begins + rest, []), freq, f"by-{name}", freq)
        edit = Edit(MOVES, "day_passes r (day_in r k) then", f"{at(freq)} || day_passes r (day_in r k) then", [SAME, OR])
        yield Version(f"{freq}: a move on the same day", edit, freq, "by-month", freq)


# Filling in: left out, done where it isn't due, and done with another value.

FILLS = {  # the test, what it fills, and at which frequencies that is due
    "month": ("free && same r.freq Frequency.Yearly", "bymonth", ("Yearly",)),
    "month-day": ("free && (same r.freq Frequency.Yearly || same r.freq Frequency.Monthly)", "bymonthday", ("Yearly", "Monthly")),
    "weekday": ("free && same r.freq Frequency.Weekly", "byday", ("Weekly",)),
    "hour": ("is_below r.freq Frequency.Hourly", "byhour", FREQUENCIES[:4]),
    "minute": ("is_below r.freq Frequency.Minutely", "byminute", FREQUENCIES[:5]),
    "second": ("is_below r.freq Frequency.Secondly", "bysecond", FREQUENCIES[:6]),
}
OTHER_VALUES = {  # a value, what is taken instead, and the case that sees it
    "month": ("months (pos date.month)", "months (pos date.day)", "yearly"),
    "month-day": ("monthdays (pos date.day)", "monthdays (pos date.month)", "monthly"),
    "weekday": ("pos (weekday (day_of s))", "pos (weekday (day_of s + 1))", "weekly"),
    "hour": ("hours (pos (hour_of s))", "hours (pos (minute_of s))", "daily"),
    "minute": ("minutes (pos (minute_of s))", "minutes (pos (second_of s))", "hourly"),
    "second": ("seconds (pos (second_of s))", "seconds (pos (minute_of s))", "minutely"),
}


def fillings():
    for name, (test, field, due) in FILLS.items():
        for freq in FREQUENCIES:
            for months, there in (("", "is_empty r.bymonth"), ("-in-months", "not (is_empty r.bymonth)")):
                if name == "month" and months:
                    continue  # a month that is given is not taken, whatever the test
                where = f"{at(freq)} && {there}"
                told, new = ("left out", f"({test}) && not ({where})") if freq in due else ("filled in", f"{test} || free && {where}")
                if freq not in due and name in ("hour", "minute", "second"):
                    new = f"{test} || {where}"
                edit = Edit(FILLING, f"{field} = takes ({test})", f"{field} = takes ({new})", [NOT])
                yield Version(f"{freq}{months}: {name} {told}", edit, "Filling", freq.lower() + months, freq)
    for name, (old, new, case) in OTHER_VALUES.items():
        yield Version(f"another {name} filled in", Edit(FILLING, old, new, [PLUS]), "Filling", case)
    test = FILLS["month"][0]
    old = f"bymonth = takes ({test}) r.bymonth (slot_of months (pos date.month));"
    new = f"bymonth = if {test} then mark r.bymonth (slot_of months (pos date.month)) else r.bymonth;"
    yield Version("Yearly: month filled in though given", Edit(FILLING, old, new, []), "Filling", "yearly-in-months")
    for field, name in (("byweekno", "week-number"), ("byyearday", "year-day"), ("bymonthday", "month-day"), ("byday", "day")):
        old = "no_days r = is_empty r.byweekno && (is_empty r.byyearday && (is_empty r.bymonthday && is_empty r.byday))"
        for freq in FREQUENCIES[:3]:
            new = old.replace(f"is_empty r.{field}", f"({at(freq)} || is_empty r.{field})")
            if freq == "Monthly" and field == "bymonthday" or freq == "Weekly" and field == "byday":
                continue  # that list is the one to fill in, and it isn't empty
            if may_stand(name, freq):
                yield Version(f"{freq}: filled in beside {field}", Edit(FILLING, old, new, []), freq, f"by-{name}", freq)


# The numbers, and the tests of the check.

REFUSED = (  # number, name, the table of the grid that has it, and its test
    (1, "FrequencyAbove", "frequency", "ltb 6 w.freq"),
    (2, "WeekStartAbove", "week-start", "ltb 6 w.wkst"),
    (3, "StartOut", "start", "ltb last_instant w.start"),
    (4, "UntilOut", "until", "until_out w.until"),
    (5, "EntryOut", "entries-month", "entry_out w.lists"),
    (6, "NotRising", "order-month", "not_rising w.lists"),
    (7, "MixedDays", "mixed", "mixed_days w.lists"),
    (8, "NthMisplaced", "nth", "nth_misplaced w.freq w.lists"),
    (9, "PositionsAlone", "positions", "positions_alone w.lists"),
    (10, "Nought", "nought", "nought w.interval w.count"),
    (11, "CountAndUntil", "count-and-until", "count_and_until w.count w.until"),
    (12, "ListMisplaced", "misplaced-weekno", "list_misplaced w.freq w.lists"),
)
RANGES = {
    "months": ("from_one", 12, "entries-month"), "monthdays": ("either_way", 31, "entries-monthday"), "yeardays": ("either_way", 366, "entries-yearday"),
    "weeknos": ("either_way", 53, "entries-weekno"), "nths": ("through_zero", 53, "entries-day"), "weekdays": ("from_zero", 6, "entries-day"),
    "hours": ("from_zero", 23, "entries-hour"), "minutes": ("from_zero", 59, "entries-minute"), "seconds": ("from_zero", 59, "entries-second"),
    "positions": ("either_way", 366, "entries-setpos"),
}
OTHER_KINDS = {"from_one": "from_zero", "either_way": "through_zero", "through_zero": "either_way", "from_zero": "from_one"}


def numbers():
    for (i, a, table, _), (j, b, _, _) in zip(REFUSED, REFUSED[1:]):
        old = f"refusal_number Refusal.{a} = {i}\nrefusal_number Refusal.{b} = {j}\n"
        new = f"refusal_number Refusal.{a} = {j}\nrefusal_number Refusal.{b} = {i}\n"
        yield Version(f"{i} and {j} exchanged", Edit(REFUSALS, old, new, []), "Refusals", table)
        old, new = f"    Refusal.{a} ∷\n    Refusal.{b} ∷\n", f"    Refusal.{b} ∷\n    Refusal.{a} ∷\n"
        if i != 8:  # 8 needs a BYDAY and 9 has none
            yield Version(f"{j} before {i}", Edit(REFUSALS, old, new, []), "Refusals", "lowest")
    for i, name, table, test in REFUSED:
        line = f"applies Refusal.{name} w ="
        yield Version(f"{i} never given", Edit(REFUSALS, f"{line} {test}\n", f"{line} false\n", []), "Refusals", table)
    old = "fault_number Fault.Record = 20\nfault_number Fault.Cursor = 21\n"
    new = "fault_number Fault.Record = 21\nfault_number Fault.Cursor = 20\n"
    yield Version("20 and 21 exchanged", Edit(FAULTS, old, new, []), "Faults", "record-20")


def list_of(table):
    """The one list that a table's rules have. Those with BYSETPOS have a second."""
    return None if table.endswith("setpos") else table.partition("-")[2]


def ranges():
    for name, (kind, n, table) in RANGES.items():
        line, others = f"\n{name} = {kind} {n}\n", {f"to {other}": f"{kind} {other}" for other in (n - 1, n + 1)}
        others["zero"] = f"{OTHER_KINDS[kind]} {n}"
        if kind == "either_way":
            for other in (n - 1, n + 1):
                others[f"from -{other}"] = f"record {{ negatives = {other}; zeroin = false; positives = {n} }}"
        for told, new in others.items():
            yield Version(f"{name}: {told}", Edit(LISTS, line, f"\n{name} = {new}\n", []), "Refusals", table, list_of(table))
    for test, table in (("ltb 6 w.freq", "frequency"), ("ltb 6 w.wkst", "week-start")):
        for other in (5, 7):
            new = test.replace("6", str(other))
            yield Version(f"{table} to {other}", Edit(REFUSALS, test, new, []), "Refusals", table)
    for test, new, table in (
        ("= ltb last_instant w.start", "= leb last_instant w.start", "start"),
        ("= ltb last_instant w.start", "= ltb (suc last_instant) w.start", "start"),
        ("= ltb last_instant t", "= leb last_instant t", "until"), ("= ltb last_instant t", "= ltb (suc last_instant) t", "until"),
    ):
        yield Version(f"{table} by {new.strip('= ')}", Edit(REFUSALS, test, new, [LEB, SUC]), "Refusals", table)


SINGLE = {  # the ranges of the lists that are one list, and the lists
    "months": "month", "monthdays": "monthday", "yeardays": "yearday", "weeknos": "weekno",
    "hours": "hour", "minutes": "minute", "seconds": "second", "positions": "setpos",
}


def tests_of_lists():
    strays = {name: f"by{field}" for name, field in SINGLE.items()} | {"nths": "bydayn", "weekdays": "bydayw"}
    for name, field in strays.items():
        table = RANGES[name][2]
        yield Version(f"{name} not held to their range", Edit(REFUSALS, f"strays {name} l.{field}", "false", []), "Refusals", table, list_of(table))
    for field in SINGLE.values():
        table = f"order-{field}"
        yield Version(f"by{field} in any order", Edit(REFUSALS, f"not (rises l.by{field})", "false", []), "Refusals", table, list_of(table))
    yield Version("byday in any order", Edit(REFUSALS, "not (pairs_rise l.bydayn l.bydayw)", "false", []), "Refusals", "order-day", "day")
    old = "rises_from a (x ∷ xs) = elim (lt_z a x) ["
    yield Version("an entry twice", Edit(REFUSALS, old, "rises_from a (x ∷ xs) = elim (not (lt_z x a)) [", []), "Refusals", "order-hour")
    old = "pair_below n w m v = lt_z n m || (not (lt_z m n) && lt_z w v)"
    yield Version("a pair twice", Edit(REFUSALS, old, "pair_below n w m v = lt_z n m || (not (lt_z m n) && not (lt_z v w))", []), "Refusals", "order-day")
    yield Version("pairs by weekday", Edit(REFUSALS, old, "pair_below n w m v = lt_z w v || (not (lt_z v w) && lt_z n m)", []), "Refusals", "order-day")
    old = "mixed_days l = some_every l.bydayn && some_nth l.bydayn"
    yield Version("every day is mixed", Edit(REFUSALS, old, "mixed_days l = some_every l.bydayn", []), "Refusals", "entries-day")
    yield Version("every nth is mixed", Edit(REFUSALS, old, "mixed_days l = some_nth l.bydayn", []), "Refusals", "nth")
    old = "(not (lacks l.byweekno) || ltb 1 freq)"
    for told, new in (
        ("beside week numbers", "(ltb 1 freq)"), ("at every frequency", "(not (lacks l.byweekno))"),
        ("at WEEKLY", "(not (lacks l.byweekno) || ltb 2 freq)"), ("not at MONTHLY", "(not (lacks l.byweekno) || ltb 0 freq)"),
    ):
        yield Version(f"nth {told}", Edit(REFUSALS, old, new, []), "Refusals", "nth")


def positions_alone():
    whole = """    && (lacks l.bymonth && (lacks l.bymonthday && (lacks l.byyearday && (lacks l.byweekno
    && (lacks l.bydayn && (lacks l.bydayw && (lacks l.byhour && (lacks l.byminute && lacks l.bysecond))))))))"""
    for fields in (("bymonth",), ("bymonthday",), ("byyearday",), ("byweekno",), ("bydayn", "bydayw"), ("byhour",), ("byminute",), ("bysecond",)):
        new = whole
        for field in fields:
            new = re.sub(rf"lacks l\.{field}\b", "true", new)
        yield Version(f"9 beside {fields[0]}", Edit(REFUSALS, whole, new, []), "Refusals", "positions")


# 10, 11 and 12.

OF_COUNT = (  # what is told of it, its line, the line instead, and the table
    ("INTERVAL 0 taken", "nought interval count = eqb interval 0 || count_nought count", "nought interval count = count_nought count", "nought"),
    ("INTERVAL 1 refused", "= eqb interval 0 ||", "= ltb interval 2 ||", "nought"),
    ("COUNT 0 taken", "nought interval count = eqb interval 0 || count_nought count", "nought interval count = eqb interval 0", "nought"),
    ("COUNT 1 refused", "count_nought (Some n) = eqb n 0", "count_nought (Some n) = ltb n 2", "nought"),
    ("an absent COUNT is 0", "count_nought None = false", "count_nought None = true", "nought"),
    ("COUNT alone refused", "count_and_until count None = false", "count_and_until count None = has_count count", "count-and-until"),
    ("UNTIL alone refused", "count_and_until count (Some t) = has_count count", "count_and_until count (Some t) = true", "count-and-until"),
    ("COUNT 1 beside UNTIL taken", "has_count (Some n) = true", "has_count (Some n) = ltb 1 n", "count-and-until"),
)
MISPLACED = {  # the list: its name, and its test
    "weekno": ("week-number", "weeknos && not (eqb freq 0)"),
    "yearday": ("year-day", "yeardays && (eqb freq 3 || (eqb freq 2 || eqb freq 1))"),
    "monthday": ("month-day", "monthdays && eqb freq 2"),
}


def counts():
    for told, old, new, table in OF_COUNT:
        yield Version(told, Edit(REFUSALS, old, new, []), "Refusals", table)


def misplaced():
    for field, (name, test) in MISPLACED.items():
        table = f"misplaced-{field}"
        for number, freq in enumerate(FREQUENCIES):
            here = f"eqb freq {number}"
            told, new = ("refused", f"{test} || {field}s && {here}") if may_stand(name, freq) else ("taken", f"{test} && not ({here})")
            yield Version(f"{freq}: {name} {told}", Edit(REFUSALS, test, f"({new})", []), "Refusals", table, list_of(table))
        for told, sign in (("positive", "lt_z (pos 0)"), ("negative", "λ x. lt_z x (pos 0)")):
            edit = Edit(REFUSALS, f"(not (lacks l.by{field}))", f"(some ({sign}) l.by{field})", [])
            yield Version(f"{name} refused where {told} alone", edit, "Refusals", table, list_of(table))


# The bounds of a cursor.

IN_RANGE = "in_range r k = ltb (period r k).begins (range_end * 86400)"
ENDS_OF = "(period r k).ends"
UNITS = dict(zip(FREQUENCIES, ("year", "month", "week", "day", "hour", "minute", "second")))


def cursors_by_frequency():
    for freq in FREQUENCIES:
        new = IN_RANGE.replace("= ltb", f"= {at(freq)} || ltb")
        yield Version(f"{freq}: any period", Edit(PERIODS, IN_RANGE, new, [SAME, OR]), "Cursors", f"{freq.lower()}-behind-the-last", freq)
        new = IN_RANGE.replace("(period r k).begins", f"(period r (if {at(freq)} then k + 1 else k)).begins")
        yield Version(f"{freq}: a period too few", Edit(PERIODS, IN_RANGE, new, [SAME, IF]), "Cursors", f"{freq.lower()}-last", freq)
        new = f"(if {at(freq)} then (period r (k + 1)).begins else {ENDS_OF})"
        uses = [SAME, IF, FREQUENCY, PLUS]
        yield Version(f"{freq}: a period's end is the next one's beginning", Edit(RUN, ENDS_OF, new, uses), "Cursors", f"beyond-{UNITS[freq]}-end", freq)
        new = f"(if {at(freq)} then (period r k).begins else {ENDS_OF})"
        yield Version(f"{freq}: a period's end is its beginning", Edit(RUN, ENDS_OF, new, uses), "Cursors", f"to-{UNITS[freq]}-end", freq)


PLACES = "leb c.place (length (g.kept c.k))"
NUMBER = "leb c.number (next g c - g.start)"
NEXT = "get_or (g.kept c.k) c.place (g.ends c.k)"
BELOW_COUNT = "below (present b) n = ltb n b"
WEEK = "week w n = of_days (w + 7 * n) (min (w + 7 * n + 7) range_end)"
UNCUT = "week w n = of_days (w + 7 * n) (w + 7 * n + 7)"
FORMED = "formed_in State.Running g c = poised g c"
ENDED = "formed_in (State.Ended cause) g c = true\n"
CAUSES = {"Count": "count", "Interval": "interval", "Until": "until", "NoTick": "no-tick", "Range": "range"}
BOUNDS = (
    ("a period that begins after the last second", PERIODS, IN_RANGE, IN_RANGE.replace("ltb", "leb"), [LEB], "daily-behind-the-last"),
    ("k wraps", PERIODS, "(k * r.interval)", "(k * r.interval % 18446744073709551616)", [], "k-without-wrapping"),
    ("a place too many", CURSORS, PLACES, PLACES[:-1] + " + 1)", [], "passed-beyond"),
    ("a place too many where positions choose", CURSORS, PLACES, PLACES[:-1] + " + 1)", [], "kept-passed-beyond"),
    ("a place too few", CURSORS, PLACES, PLACES.replace("c.place", "(c.place + 1)"), [], "all-passed"),
    ("a place too few where positions choose", CURSORS, PLACES, PLACES.replace("c.place", "(c.place + 1)"), [], "kept-passed"),
    ("COUNT reached and running", GIVEN, BELOW_COUNT, "below (present b) n = ltb n (suc b)", [SUC], "at-count"),
    ("COUNT - 1 refused", GIVEN, BELOW_COUNT, "below (present b) n = ltb (suc n) b", [SUC], "below-count"),
    ("a number too many", CURSORS, NUMBER, "leb c.number (next g c - g.start + 1)", [], "beyond-next"),
    ("a number too few", CURSORS, NUMBER, "leb (c.number + 1) (next g c - g.start)", [], "to-next"),
    ("the candidate after the next", CURSORS, NEXT, NEXT.replace("c.place", "(c.place + 1)"), [], "beyond-next"),
    ("seconds before the start count", CURSORS, NUMBER, "leb c.number ((next g c - g.start) + (g.start - next g c))", [], "one-before-the-start"),
    ("a candidate before the start refused", CURSORS, NUMBER, f"(leb g.start (next g c) && {NUMBER})", [], "none-before-the-start"),
    ("UNTIL counts", CURSORS, NUMBER, f"({NUMBER} && not (above g.until (next g c)))", [NOT, "Rattle.machine.specs.Given.{above}"], "past-until"),
    ("the last week isn't cut", PERIODS, WEEK, UNCUT, [], "beyond-last-week-end"),
    ("the last week is cut a day early", PERIODS, WEEK, WEEK.replace("range_end", "(range_end - 1)"), [], "to-last-week-end"),
)


def cursor_bounds():
    for name, path, old, new, uses, case in BOUNDS:
        yield Version(name, Edit(path, old, new, uses), "Cursors", case)
    for cause, case in CAUSES.items():
        new = "".join(f"formed_in (State.Ended Cause.{other}) g c = {'poised g c' if other == cause else 'true'}\n" for other in CAUSES)
        yield Version(f"ended by {cause} has to be well formed", Edit(CURSORS, ENDED, new, []), "Cursors", f"ended-by-{case}")


# The first week.

WEEKLY = "period_after Frequency.Weekly wkst s n = "
WEEKS = WEEKLY + "week (week_of wkst (day_of s)) n"
FIRST, BEHIND = "week_of wkst (day_of s) + 7 * n", "(min (week_of wkst (day_of s) + 7 * n + 7) range_end)"
PERIOD_AFTER = "period_after r.freq r.wkst (second r.start) (k * r.interval)"
PERIOD = f"unfolding period_after\nperiod r k = {PERIOD_AFTER}"
WITHOUT_POSITIONS = "is_empty r.bysetpos && (same r.freq Frequency.Weekly && eqb (k * r.interval) 0)"
WITH_POSITIONS_ALONE = f"""unfolding period_after is_empty
period r k =
    let p : Period = {PERIOD_AFTER} in
    record {{ begins = if {WITHOUT_POSITIONS} then day_of (second r.start) * 86400 else p.begins; ends = p.ends }}"""
AT_CANDIDATE = "at_candidate g x c = elim (late g x) ["
PASSED = "| true ↦ leaves (pass c)"
FULL = "walk g (x ∷ xs) s = elim (full s) ["
TO_THE_END = f"({NUMBER} || ltb (next g c) g.start && leb c.number (g.ends c.k - g.start))"
WEEK_STARTS = ("monday", "tuesday", "wednesday", "thursday", "friday", "saturday", "sunday")
CUT_BY_THE_START = tuple(f"from-{a}-on-{b}" for a in WEEK_STARTS for b in WEEK_STARTS if a != b)
FROM_THE_WEEK_START = tuple(f"from-{day}-on-{day}" for day in WEEK_STARTS[1:])
EVERY_OTHER = tuple(f"every-other-week-from-{day}" for day in WEEK_STARTS if day != "wednesday")  # the start is a Wednesday
SECOND_IN_1970 = tuple(f"in-1970-from-{day}-second" for day in WEEK_STARTS if day != "thursday")  # 1970-01-01 is a Thursday
MONDAY_OF_1969 = tuple(f"in-1970-from-{day}" for day in ("friday", "saturday", "sunday", "monday"))
UNTIL_BEFORE = ("until-among-those-before", "until-before-the-first")
AT_PLACES = ("place-0", "place-1", "place-1-beyond", "place-2", "place-2-beyond", "place-3", "without-positions")
AT_PLACES_OF_1970 = ("in-1970-place-0", "in-1970-place-1", "in-1970-place-1-beyond", "in-1970-place-2", "december-alone")
FIRST_WEEKS = (  # what is told of it, its place and text, the text instead, what that uses, and the cases
    ("it begins on the start's day", PERIODS, WEEKS, f"{WEEKLY}of_days (if eqb n 0 then day_of s else {FIRST}) {BEHIND}", [IF, EQB],
     CUT_BY_THE_START + EVERY_OTHER + SECOND_IN_1970 + MONDAY_OF_1969 + UNTIL_BEFORE + AT_PLACES + AT_PLACES_OF_1970
     + ("first-alone", "every-other-week", "in-1970-first", "in-9999-first", "in-9999-place-0", "in-9999-place-1")),
    ("seven days from the start", PERIODS, WEEKS, f"{WEEKLY}week (day_of s) n", [],
     ("first-alone", "from-thursday-on-sunday", "place-3-beyond", "in-1970-place-2-beyond")),
    ("later ones begin on the start's weekday", PERIODS, WEEKS, f"{WEEKLY}of_days (if eqb n 0 then {FIRST} else day_of s + 7 * n) {BEHIND}", [IF, EQB],
     EVERY_OTHER + ("first-alone", "in-1970-first")),
    ("from Monday", PERIODS, WEEKS, f"{WEEKLY}week (week_of 0 (day_of s)) n", [], FROM_THE_WEEK_START
     + ("every-other-week-from-wednesday", "in-1970-from-tuesday", "in-1970-from-wednesday", "in-1970-from-thursday", "in-1970-from-thursday-second")),
    ("from Sunday", PERIODS, WEEKS, f"{WEEKLY}week (week_of 6 (day_of s)) n", [], ("from-monday-on-monday",)),
    ("whole with BYSETPOS alone", PERIODS, PERIOD, WITH_POSITIONS_ALONE, [IF, EQB, AND, SAME, IS_EMPTY], MONDAY_OF_1969 + AT_PLACES + AT_PLACES_OF_1970),
    ("days of 1969 cut off", PERIODS, WEEK, WEEK.replace("(w + 7 * n) ", "(max (w + 7 * n) 719162) "), [MAX],
     SECOND_IN_1970 + MONDAY_OF_1969 + AT_PLACES_OF_1970 + ("in-1970-first",)),
    ("days of 1969 judged as 1 January 1970", DAYS, "(date_of d) d", "(date_of (max d 719162)) d", [MAX], ("january-alone", "december-alone")),
    ("beginning in 1969 it is out of range", PERIODS, IN_RANGE, IN_RANGE.replace("= ", "= leb (719162 * 86400) (period r k).begins && "), [LEB, AND],
     SECOND_IN_1970 + MONDAY_OF_1969),
    ("not cut at the end", PERIODS, WEEK, UNCUT, [], ("in-9999-cut", "in-9999-place-1-beyond")),
    ("cut a day early", PERIODS, WEEK, WEEK.replace("range_end", "(range_end - 1)"), [], ("in-9999-last", "in-9999-cut", "in-9999-place-1")),
    ("a place too many", CURSORS, PLACES, PLACES[:-1] + " + 1)", [], ("place-4", "december-beyond")),
    ("the number wraps", CURSORS, NUMBER, f"(ltb (next g c) g.start || {NUMBER})", [OR, LTB], ("place-0-beyond", "in-1970-place-0-beyond")),
    ("the number to the week's end", CURSORS, NUMBER, TO_THE_END, [OR, LTB], ("place-0-beyond", "in-9999-place-0")),
    ("UNTIL not looked at before the start", TURNS, AT_CANDIDATE, AT_CANDIDATE.replace("late g x", "late g x && not (early g x)"), [AND, NOT], UNTIL_BEFORE),
    ("handed out before the start", TURNS, PASSED, PASSED.replace("leaves (pass c)", "hands x (counted g (hand_out (pass c)))"), [],
     MONDAY_OF_1969 + ("without-positions",)),
    ("the place counts from the start", TURNS, PASSED, PASSED.replace("pass c", "c"), [], MONDAY_OF_1969 + ("without-positions",)),
    ("passed though the buffer is full", WALKS, FULL, FULL.replace("full s", "full s && not (early g x)"), [AND, NOT, EARLY], ("without-room",)),
)


def first_weeks():
    for told, path, old, new, uses, cases in FIRST_WEEKS:
        for case in cases:
            yield Version(f"first week: {told}, {case}", Edit(path, old, new, uses), "Weeks", case)


def faults():
    old = "| false ↦ refuse Fault.Record c x"
    new = "| false ↦ elim (well_formed g c) [ false ↦ refuse Fault.Cursor c x | true ↦ refuse Fault.Record c x ]"
    yield Version("21 before 20", Edit(CALLS, old, new, []), "Faults", "record-before-cursor")
    old = "| false ↦ refuse Fault.Cursor c x"
    yield Version("a bad cursor called a bad record", Edit(CALLS, old, "| false ↦ refuse Fault.Record c x", []), "Faults", "cursor-21")
    yield Version("every running cursor refused", Edit(CURSORS, FORMED, "formed_in State.Running g c = false", []), "Faults", "neither")


def versions():
    kinds = (
        passed_over, one_ended, nths, moves, fillings, numbers, ranges, tests_of_lists, positions_alone, counts, misplaced,
        cursors_by_frequency, cursor_bounds, first_weeks, faults,
    )
    return [version for kind in kinds for version in kind()]
