//! The oracle: reads a rule a line, in the words of the line program, and writes what the crate lists for it.
//! The crate's own modules are compiled in, so that its private `RRuleIter` is in reach.
#![allow(dead_code, unused_imports)]

mod core;
mod error;
mod iter;
mod numbered;
mod parser;
mod validator;

pub use crate::core::{Frequency, NWeekday, RRule, RRuleResult, RRuleSet, Tz};
pub use crate::core::{Unvalidated, Validated};
pub use chrono::Weekday;
pub use error::{ParseError, RRuleError, ValidationError};
pub use iter::RRuleSetIter;

use crate::iter::rrule_iter::WasLimited;
use crate::numbered::{FREQUENCIES, WEEKDAYS};
use chrono::{DateTime, NaiveDateTime, TimeZone};
use std::io::{BufRead, Write};
use std::panic::{catch_unwind, AssertUnwindSafe};
use std::str::FromStr;
use std::time::Instant;

const LAST_INSTANT: i64 = 253_402_300_799;

/// What a line asks for: the rule's words, and the oracle's own.
struct Job {
    rule: RRule<Unvalidated>,
    start: Option<DateTime<Tz>>,
    /// how many instants at most: `max` or `room`, times `calls`
    room: usize,
    calls: usize,
    /// 0: without the crate's limit of rounds
    limited: bool,
    /// 1: says where the crate's counter stands at the end
    at: bool,
    /// 1: goes the public way, through `RRuleSet`
    set: bool,
    /// instants above it are not listed
    cap: i64,
}

fn number<T: FromStr>(text: &str) -> Option<T> {
    text.parse().ok()
}

fn list<T>(text: &str, entry: impl Fn(&str) -> Option<T>) -> Option<Vec<T>> {
    text.split(',').map(entry).collect()
}

fn named<T: Copy>(names: &[T], text: &str) -> Option<T> {
    names.get(number::<usize>(text)?).copied()
}

fn nth_weekday(text: &str) -> Option<NWeekday> {
    let (n, weekday) = text.split_once(':')?;
    let n: i16 = number(n)?;
    Some(NWeekday::new((n != 0).then_some(n), named(&WEEKDAYS, weekday)?))
}

fn instant(text: &str) -> Option<DateTime<Tz>> {
    let time = NaiveDateTime::from_timestamp_opt(number(text)?, 0)?;
    Some(Tz::UTC.from_utc_datetime(&time))
}

/// Takes one word into the job; nothing where the word can't be taken.
fn take_word(job: &mut Job, key: &str, value: &str) -> Option<()> {
    let rule = &mut job.rule;
    match key {
        "freq" => rule.freq = named(&FREQUENCIES, value)?,
        "start" => job.start = Some(instant(value)?),
        "interval" => rule.interval = number(value)?,
        "count" => rule.count = Some(number(value)?),
        "until" => rule.until = Some(instant(value)?),
        "wkst" => rule.week_start = named(&WEEKDAYS, value)?,
        "bymonth" => rule.by_month = list(value, number)?,
        "bymonthday" => rule.by_month_day = list(value, number)?,
        "byyearday" => rule.by_year_day = list(value, number)?,
        "byweekno" => rule.by_week_no = list(value, number)?,
        "byday" => rule.by_weekday = list(value, nth_weekday)?,
        "byhour" => rule.by_hour = list(value, number)?,
        "byminute" => rule.by_minute = list(value, number)?,
        "bysecond" => rule.by_second = list(value, number)?,
        "bysetpos" => rule.by_set_pos = list(value, number)?,
        "room" | "max" => job.room = number(value)?,
        "calls" => job.calls = number(value)?,
        // the crate has no budget, no record to run as it is, and no cursor to go on from
        "moves" => number::<u32>(value).map(|_| ())?,
        "record" if value == "0" => {}
        "limited" => job.limited = value != "0",
        "at" => job.at = value != "0",
        "set" => job.set = value != "0",
        "cap" => job.cap = number(value)?,
        _ => return None,
    }
    Some(())
}

fn parse(line: &str) -> Result<Job, String> {
    let mut job = Job {
        rule: RRule::default(),
        start: None,
        room: 20,
        calls: 1,
        limited: true,
        at: false,
        set: false,
        cap: i64::MAX,
    };
    let mut has_frequency = false;
    for word in line.split_whitespace() {
        let (key, value) = word.split_once('=').unwrap_or((word, ""));
        take_word(&mut job, key, value).ok_or_else(|| format!("input {word}"))?;
        has_frequency |= key == "freq";
    }
    if !has_frequency {
        return Err("input freq missing".into());
    }
    Ok(job)
}

/// The instants listed, whether the iterator ended, and whether an instant above the cap came.
struct Listing {
    instants: Vec<i64>,
    ended: bool,
    capped: bool,
}

fn collect(job: &Job, dates: &mut impl Iterator<Item = DateTime<Tz>>) -> Listing {
    let mut listing = Listing { instants: vec![], ended: false, capped: false };
    while listing.instants.len() < job.room.saturating_mul(job.calls) {
        match dates.next() {
            Some(date) if date.timestamp() > job.cap => {
                listing.capped = true;
                break;
            }
            Some(date) => listing.instants.push(date.timestamp()),
            None => {
                listing.ended = true;
                break;
            }
        }
    }
    listing
}

fn show(listing: &Listing, ended: bool, limited: bool, at: &str) -> String {
    let capped = if listing.capped { " capped=1" } else { "" };
    let (n, ended, limited) = (listing.instants.len(), u8::from(ended), u8::from(limited));
    let instants: String = listing.instants.iter().map(|t| format!(" {t}")).collect();
    format!("ok n={n} end={ended} limited={limited}{capped}{at} :{instants}")
}

fn run_set(job: &Job, start: DateTime<Tz>, rule: RRule) -> String {
    let set = RRuleSet::new(start).rrule(rule);
    let set = if job.limited { set.limit() } else { set };
    let mut dates = set.into_iter();
    let listing = collect(job, &mut dates);
    show(&listing, listing.ended, dates.was_limited(), "")
}

fn run_iter(job: &Job, start: DateTime<Tz>, rule: RRule) -> String {
    let mut dates = rule.iter_with_ctx(start, job.limited);
    let listing = collect(job, &mut dates);
    let ended = listing.ended || (dates.finished && dates.buffer.is_empty());
    let c = &dates.counter_date;
    let at = format!(
        " at={:04}-{:02}-{:02}T{:02}:{:02}:{:02}",
        c.year, c.month, c.day, c.hour, c.minute, c.second
    );
    show(&listing, ended, dates.was_limited, if job.at { &at } else { "" })
}

fn answer(line: &str) -> Result<String, String> {
    if line.is_empty() {
        return Ok(String::new());
    }
    let job = parse(line)?;
    let start = job.start.ok_or("input start missing")?;
    let rule = job.rule.clone().validate(start).map_err(|e| e.to_string())?;
    Ok(if job.set { run_set(&job, start, rule) } else { run_iter(&job, start, rule) })
}

const BENCH_RULES: [&str; 10] = [
    "freq=3",
    "freq=2 byday=0:0,0:4",
    "freq=1 byday=-1:4",
    "freq=0 byweekno=20",
    "freq=0 byyearday=1,100,200",
    "freq=4 interval=2",
    "freq=5 interval=15 byhour=3,4",
    "freq=6 interval=7 byminute=0",
    "freq=1 bysetpos=-1 byday=0:0,0:1,0:2,0:3,0:4",
    "freq=3 bymonth=2 byhour=5,17",
];

/// How many instants came (of at most n, up to 9999), their sum, and the nanoseconds for each.
fn time(dates: impl Iterator<Item = DateTime<Tz>>, n: usize) -> (usize, i64, f64) {
    let begun = Instant::now();
    let times = dates.map(|d| d.timestamp()).take_while(|t| *t <= LAST_INSTANT);
    let (count, sum) = times.take(n).fold((0, 0i64), |(c, s), t| (c + 1, s.wrapping_add(t)));
    (count, sum, begun.elapsed().as_nanos() as f64 / count as f64)
}

fn bench(n: usize, rounds: usize, start: &str) {
    println!("rule | instants | sum | ns/instant RRuleIter | ns/instant RRuleSet | setup ns");
    for words in BENCH_RULES {
        let (mut iter_ns, mut set_ns, mut setup_ns) = (f64::MAX, f64::MAX, f64::MAX);
        let mut listed = (0, 0);
        for _ in 0..rounds {
            let job = parse(&format!("{words} start={start}")).unwrap();
            let (rule, start) = (job.rule, job.start.unwrap());
            let begun = Instant::now();
            let rule = rule.validate(start).unwrap();
            let dates = rule.iter_with_ctx(start, true);
            setup_ns = setup_ns.min(begun.elapsed().as_nanos() as f64);
            let (count, sum, ns) = time(dates, n);
            iter_ns = iter_ns.min(ns);
            listed = (count, sum);
            let set = RRuleSet::new(start).rrule(rule).limit();
            let (count, sum, ns) = time(set.into_iter(), n);
            assert_eq!((count, sum), listed);
            set_ns = set_ns.min(ns);
        }
        let (count, sum) = listed;
        println!("{words} | {count} | {sum} | {iter_ns:.0} | {set_ns:.0} | {setup_ns:.0}");
    }
}

fn main() {
    let args: Vec<String> = std::env::args().collect();
    if args.get(1).map(String::as_str) == Some("bench") {
        let n = args.get(2).and_then(|s| number(s)).unwrap_or(100_000);
        let rounds = args.get(3).and_then(|s| number(s)).unwrap_or(5);
        bench(n, rounds, args.get(4).map_or("1704067200", |s| s));
        return;
    }
    // a panic of the crate is an answer too: one word on the line, nothing on standard error
    std::panic::set_hook(Box::new(|_| {}));
    let mut out = std::io::stdout().lock();
    for line in std::io::stdin().lock().lines().map_while(Result::ok) {
        let written = match catch_unwind(AssertUnwindSafe(|| answer(&line))) {
            Ok(Ok(listing)) => listing,
            Ok(Err(reason)) => format!("refused {reason}"),
            Err(_) => "panic".to_string(),
        };
        writeln!(out, "{written}").expect("standard output can be written");
    }
}
