"""Answers as listings: the instants, and up to which second the listing is whole."""
from dataclasses import dataclass
from itertools import zip_longest

from programs import load

model = load("model")
DAY, LAST = model.DAY, model.LAST_INSTANT
COMPARED = 64  # instants of a rule, at most
ENDED, ROOM, BUDGET, GAVE_UP = "ended", "room", "budget", "gave up"


@dataclass
class Listing:
    instants: list
    stop: str
    last: int  # every instant up to it that the program would list is listed
    capped: bool = False  # the Rust had instants after 9999
    cause: str = ""  # of our end
    at: tuple = ()  # the Rust's counter


def month_begin(months):
    """The first day of a month, counted from January of year 0."""
    year, month = divmod(months, 12)
    return model.first_day(year) + sum(model.month_lengths(year)[:month])


def period_end(rule, k):
    """The last second of period k."""
    start_day = rule.start // DAY
    if rule.freq == model.YEARLY:
        end = model.first_day(model.year_of(start_day) + k * rule.interval + 1) * DAY
    elif rule.freq == model.MONTHLY:
        month, _ = model.month_and_month_day(start_day)
        end = month_begin(model.year_of(start_day) * 12 + month + k * rule.interval) * DAY
    elif rule.freq == model.WEEKLY:
        end = (model.week_begin(start_day, rule.wkst) + 7 * (k * rule.interval + 1)) * DAY
    elif rule.freq == model.DAILY:
        end = (start_day + k * rule.interval + 1) * DAY
    else:
        unit = model.UNITS[rule.freq]
        end = (rule.start // unit + k * rule.interval + 1) * unit
    return end - 1


def our_listing(rule, answer):
    """Our answer as a listing; nothing where it is no listing or contradicts itself."""
    instants, colon, words = answer.partition(": ")
    stop, *rest = words.split(" ")
    words = dict(word.split("=") for word in rest)
    instants = [int(instant) for instant in instants.split()]
    if not colon or words["rest"] != "kept" or int(words["handed"]) != len(instants):
        return None
    state, k, _, _ = words["cursor"].split(",")
    if stop == "ended":
        return Listing(instants, ENDED, LAST, cause=state)
    if stop == "more":
        return Listing(instants, ROOM, instants[-1])
    return Listing(instants, BUDGET, period_end(rule, int(k)))


def counter_begin(rule, at):
    """The first second of the period at which the Rust's counter stands."""
    year, month, day, hour, minute, second = at
    if rule.freq == model.YEARLY:
        return model.first_day(year) * DAY
    days = month_begin(year * 12 + month - 1) * DAY
    if rule.freq == model.MONTHLY:
        return days
    times = (0, 0, 0, 0, hour * 3600, hour * 3600 + minute * 60, hour * 3600 + minute * 60 + second)
    return days + (day - 1) * DAY + times[rule.freq]


def rust_listing(rule, answer):
    """The Rust's answer as a listing; nothing where it is none. A listing that passes 9999 has ended."""
    head, colon, instants = answer.partition(" :")
    if not colon or not head.startswith("ok "):
        return None
    words = dict(word.split("=") for word in head.split(" ")[1:])
    instants = [int(instant) for instant in instants.split()]
    date, time = words["at"].split("T")
    at = tuple(map(int, date.split("-") + time.split(":")))
    if words["limited"] == "1":
        last = min(counter_begin(rule, at) - 1, LAST)
        return Listing(instants, GAVE_UP if last < LAST else ENDED, last, at=at)
    if words["end"] == "1" or "capped" in words:
        return Listing(instants, ENDED, LAST, capped="capped" in words, at=at)
    return Listing(instants, ROOM, instants[-1] if instants else rule.start - 1, at=at)


def first_difference(ours, theirs):
    """The first instant that only one of them lists, as far as both are whole; nothing where there is none."""
    last = min(ours.last, theirs.last)
    for a, b in zip_longest(ours.instants, theirs.instants, fillvalue=LAST + 1):
        if a != b:
            return min(a, b) if min(a, b) <= last else None
    return None


def how_far(ours, theirs):
    """How far two listings that agree were compared."""
    if ours.stop == theirs.stop == ENDED:
        return "whole"
    if theirs.stop == GAVE_UP and ours.last >= theirs.last:
        return "up to where the Rust gave up"
    return "up to our budget of moves" if ours.stop == BUDGET else "up to the room"
