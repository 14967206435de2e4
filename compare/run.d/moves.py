"""The Rust's moves below DAILY in plain Python, as the text of counter_date.rs makes them, and how they go wrong."""
from copy import copy

from listings import DAY, ENDED, model

SIZES = (24, 60, 60)
# How a move goes wrong: it carries more than once to meet a list; it never meets the list; it is from a day that doesn't pass.
CARRIED, NEVER_MET, SKIPPED = "carried", "never met", "skipped"


class Stuck(Exception):
    """The Rust's error: a time came round again in one move, so it takes its loop for an endless one."""


class Counter:
    """The Rust's counter: the day, and the hour, minute and second."""

    def __init__(self, rule):
        self.rule = rule
        self.lists = (rule.byhour, rule.byminute, rule.bysecond)
        self.day, second = divmod(rule.start, DAY)
        self.time = [second // 3600, second // 60 % 60, second % 60]

    def begin(self):
        """The first second of the period at which it stands."""
        hour, minute, second = self.time
        in_hour = {model.HOURLY: 0, model.MINUTELY: minute * 60, model.SECONDLY: minute * 60 + second}
        return self.day * DAY + hour * 3600 + in_hour[self.rule.freq]

    def move(self, skips_day):
        self.increment(self.rule.freq - model.HOURLY, self.rule.interval, skips_day)

    def increment(self, level, interval, skips_day):
        """increment_hourly, _minutely and _secondly are one and the same, of level 0, 1 and 2."""
        if skips_day:
            self.time[level] += self.left_of_day(level) // interval * interval
        seen = set()
        while True:
            carry, self.time[level] = divmod(self.time[level] + interval, SIZES[level])
            if carry > 0 and level > 0:
                self.increment(level - 1, carry, skips_day)
            elif carry > 0:
                self.day += carry
            times = tuple(self.time[:level + 1])
            if all(not entries or time in entries for time, entries in zip(times, self.lists)):
                return
            if times in seen:
                raise Stuck
            seen.add(times)

    def left_of_day(self, level):
        """How many hours, minutes or seconds come after this one in its day."""
        gone, units = 0, 1
        for size, time in zip(SIZES[:level + 1], self.time):
            gone, units = gone * size + time, units * size
        return units - 1 - gone


class Walk:
    """The periods that the Rust looks at, of a rule below DAILY."""

    def __init__(self, rule):
        self.rule = copy(rule)
        self.rule.fill_in()
        self.days, self.ticks = model.Days(self.rule), model.Ticks(self.rule)
        self.offsets = self.ticks.kept_offsets()
        self.passing = {}  # of each day looked at

    def day_passes(self, day):
        if day not in self.passing:
            self.passing[day] = any(True for _ in self.days.between(day, day))
        return self.passing[day]

    def periods(self):
        """Each one's beginning, the instants listed of it, and how the move to it is wrong if it is. No beginning: it is stuck."""
        counter, how, time_passes = Counter(self.rule), None, self.ticks.passes(self.rule.start % DAY)
        while True:
            day_passes, begin = self.day_passes(counter.day), counter.begin()
            yield begin, [begin + offset for offset in self.offsets if day_passes and time_passes], how
            try:
                counter.move(not day_passes)
            except Stuck:
                yield None, [], NEVER_MET if day_passes else SKIPPED
                return
            how, time_passes = CARRIED if day_passes else SKIPPED, True

    def on_the_grid(self, begin):
        return (begin - self.ticks.origin) % self.ticks.step == 0

    def in_bounds(self, instant):
        return self.rule.start <= instant and (self.rule.until is None or instant <= self.rule.until)

    def is_due(self, instant):
        begin = instant - instant % self.ticks.unit
        is_kept = self.on_the_grid(begin) and self.ticks.passes(begin % DAY) and instant - begin in self.offsets
        return is_kept and self.day_passes(instant // DAY) and self.in_bounds(instant)


def wrong_moves(rule, theirs, difference):
    """How the Rust has left the grid, or passed over what is due, where the listings first differ; nothing where it hasn't.

    The walk has to list what the Rust lists up to there. What we alone list has to be due. Where the walk is stuck, the Rust
    has to have ended.
    """
    walk, wrong, listed = Walk(rule), set(), []
    period = difference // walk.ticks.unit
    for begin, instants, how in walk.periods():
        is_past = begin is None or begin // walk.ticks.unit > period
        wrong = wrong | {how} if is_past or not walk.on_the_grid(begin) else set()
        if is_past:
            break
        listed += [instant for instant in instants if instant <= difference and walk.in_bounds(instant)]
        if begin // walk.ticks.unit == period:
            break
    as_listed = listed == [instant for instant in theirs.instants if instant <= difference]
    as_ended = begin is not None or theirs.stop == ENDED and theirs.instants == listed
    explains = as_listed and as_ended and (difference in theirs.instants or walk.is_due(difference))
    return wrong if explains else set()
