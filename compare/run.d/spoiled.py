"""Rules that we refuse, each made of a random rule by one change."""
from listings import DAY, LAST, model

SHUFFLED = ("bymonth", "byhour", "byminute", "bysecond", "bymonthday")
PERIOD_SECONDS = (366 * DAY, 31 * DAY, 7 * DAY, DAY, 3600, 60, 1)
TOO_HIGH = {"bymonth": 13, "bymonthday": 32, "byyearday": 367, "byweekno": 54, "byhour": 24, "byminute": 60, "bysecond": 60}


def out_of_order(rng, rule):
    key = rng.choice([key for key in SHUFFLED if key != "bymonthday" or rule.freq != model.WEEKLY])
    first, second = rng.sample(range(1, 13), 2)
    setattr(rule, key, [max(first, second), min(first, second)])


def twice(rng, rule):
    rule.byhour = [rng.randrange(24)] * 2


def positions_alone(rng, rule):
    for key in model.LISTS:
        setattr(rule, key, [])
    rule.bysetpos = [rng.choice([-2, -1, 1, 2])]


def odd_month_days(rng, rule):
    rule.bymonthday = rng.choice([[0], [-32], [-100, -1], [-40, 0], [0, 5], [-128]])


def make_weekly(rule):
    """WEEKLY, without the lists that may not stand there."""
    rule.freq, rule.bymonthday, rule.byyearday, rule.byweekno = model.WEEKLY, [], [], []


def nth_from_weekly(rng, rule):
    if rule.freq < model.WEEKLY:
        make_weekly(rule)
    rule.byday = [(rng.choice([-3, -1, 1, 2, 4]), rng.randrange(7))]


def nth_beside_weeks(rng, rule):
    rule.freq, rule.bymonth, rule.byyearday = model.YEARLY, [], []
    week = rng.randrange(1, 54)
    rule.byweekno = [week]
    rule.byday = [(max(1, min(53, week + rng.choice([-1, 0, 1]))), rng.randrange(7))]


def mixed(rng, rule):
    weekday = rng.randrange(7)
    rule.byday = [(0, weekday), (rng.choice([1, 2, 4]), rng.choice([weekday, rng.randrange(7)]))]


def too_high(rng, rule):
    key = rng.choice(sorted(TOO_HIGH))
    setattr(rule, key, [TOO_HIGH[key]])


def late_until(rng, rule):
    rule.until = LAST + rng.randrange(1, 10**9)


def late_start(rng, rule):
    rule.start = LAST + rng.randrange(1, 10**6)
    rule.until = None


def nought(rng, rule):
    setattr(rule, rng.choice(["interval", "count"]), 0)


def count_and_until(rng, rule):
    """Now the one comes first, now the other."""
    rule.count = rng.randrange(1, 20)
    rule.until = min(LAST, rule.start + rng.randrange(40) * PERIOD_SECONDS[rule.freq] * rule.interval)


def weeks_outside_yearly(rng, rule):
    rule.freq = rng.randrange(model.MONTHLY, model.SECONDLY + 1)
    rule.byweekno = [rng.choice([-1, 1]) * rng.randrange(1, 54)]


def year_days_from_monthly(rng, rule):
    rule.freq = rng.choice([model.MONTHLY, model.WEEKLY, model.DAILY])
    rule.byyearday = [rng.choice([-1, 1]) * rng.randrange(1, 367)]


def month_days_weekly(rng, rule):
    """Two of three times negative ones alone, which the Rust takes."""
    make_weekly(rule)
    days = {rng.randrange(-31, 0) for _ in range(rng.randrange(1, 5))}
    rule.bymonthday = sorted(days | rng.choice([set(), set(), {rng.randrange(1, 32)}]))


KINDS = (
    out_of_order, twice, positions_alone, odd_month_days, nth_from_weekly, nth_beside_weeks, mixed, too_high,
    late_until, late_start, nought, count_and_until, weeks_outside_yearly, year_days_from_monthly, month_days_weekly,
)


def spoil(rng, line):
    """The rule of a line, changed so that we refuse it; nothing where the change doesn't do that."""
    rule = model.Rule(line)
    rng.choice(KINDS)(rng, rule)
    return rule if model.refusal(rule) else None
