//! The Rust crate: its iterator without the limit of rounds, and its public way.

use crate::core::{NWeekday, RRule, RRuleSet, Tz};
use crate::iter::RRuleIter;
use crate::numbered::{FREQUENCIES, WEEKDAYS};
use crate::rules::{Listed, Rule, LAST, START};
use chrono::{DateTime, NaiveDateTime, TimeZone};

fn start() -> DateTime<Tz> {
    let time = NaiveDateTime::from_timestamp_opt(START as i64, 0).expect("the start is a date");
    Tz::UTC.from_utc_datetime(&time)
}

fn list_of<T: TryFrom<i16>>(entries: &[i16]) -> Vec<T> {
    entries.iter().filter_map(|entry| T::try_from(*entry).ok()).collect()
}

pub fn rule(rule: &Rule) -> RRule {
    let by_weekday = |day: &(i16, i16)| NWeekday::new((day.0 != 0).then_some(day.0), WEEKDAYS[day.1 as usize]);
    let mut theirs = RRule::default();
    theirs.freq = FREQUENCIES[usize::from(rule.freq)];
    theirs.interval = rule.interval;
    theirs.by_month = list_of(rule.bymonth);
    theirs.by_year_day = list_of(rule.byyearday);
    theirs.by_week_no = list_of(rule.byweekno);
    theirs.by_weekday = rule.byday.iter().map(by_weekday).collect();
    theirs.by_hour = list_of(rule.byhour);
    theirs.by_minute = list_of(rule.byminute);
    theirs.by_set_pos = list_of(rule.bysetpos);
    theirs.validate(start()).expect("the crate accepts the rule")
}

fn collect(dates: impl Iterator<Item = DateTime<Tz>>, n: usize) -> Listed {
    let times = dates.map(|date| date.timestamp() as u64).take_while(|time| *time <= LAST);
    times.take(n).fold(Listed::default(), |listed, time| Listed {
        count: listed.count + 1,
        sum: listed.sum.wrapping_add(time),
    })
}

/// The first n instants up to 9999, by the crate's own iterator.
pub fn list(rule: &RRule, n: usize) -> Listed {
    collect(rule.iter_with_ctx(start(), false), n)
}

/// The same through `RRuleSet`.
pub fn list_set(rule: &RRule, n: usize) -> Listed {
    collect(RRuleSet::new(start()).rrule(rule.clone()).into_iter(), n)
}

// kept apart, so that each instant costs a call, as it does a user of the crate
#[inline(never)]
fn next(dates: &mut RRuleIter) -> Option<DateTime<Tz>> {
    dates.next()
}

/// The same by one call of `next` after another.
pub fn list_by_next(rule: &RRule, n: usize) -> Listed {
    let mut dates = rule.iter_with_ctx(start(), false);
    collect(std::iter::from_fn(|| next(&mut dates)), n)
}
