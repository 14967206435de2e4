//! Reads rule texts with the Rust crate, a line `read HEX` each, and writes them again by its `Display`.
//! The crate's own modules are compiled in; `compare/build-texts` builds this beside the oracle.
//!
//! A line is written for each: `error MESSAGE`, `panic`, or `rule WORDS text HEX filled HEX`. The first text is that of the rule as
//! read; the second that of the rule validated for the start 1970-01-01, where the crate fills in what is missing. In its place
//! stands `refused` where the crate refuses it there.
#![allow(dead_code, unused_imports)]

#[path = "../core/mod.rs"]
mod core;
#[path = "../error.rs"]
mod error;
#[path = "../iter/mod.rs"]
mod iter;
#[path = "../numbered.rs"]
mod numbered;
#[path = "../parser/mod.rs"]
mod parser;
#[path = "../validator/mod.rs"]
mod validator;

pub use crate::core::{Frequency, NWeekday, RRule, RRuleResult, RRuleSet, Tz};
pub use crate::core::{Unvalidated, Validated};
pub use chrono::Weekday;
pub use error::{ParseError, RRuleError, ValidationError};
pub use iter::RRuleSetIter;

use crate::numbered::{FREQUENCIES, WEEKDAYS};
use chrono::{NaiveDateTime, TimeZone};
use std::io::{BufRead, Write};
use std::panic::catch_unwind;

fn place<T: PartialEq>(names: &[T], name: &T) -> usize {
    names.iter().position(|other| other == name).expect("all are listed")
}

fn day(entry: &NWeekday) -> String {
    match entry {
        NWeekday::Every(weekday) => format!("0:{}", place(&WEEKDAYS, weekday)),
        NWeekday::Nth(n, weekday) => format!("{n}:{}", place(&WEEKDAYS, weekday)),
    }
}

fn list<T>(key: &str, entries: &[T], show: impl Fn(&T) -> String) -> String {
    let shown: Vec<String> = entries.iter().map(show).collect();
    if shown.is_empty() { String::new() } else { format!(" {key}={}", shown.join(",")) }
}

/// The rule in the words of the program texts.
fn words(rule: &RRule<Unvalidated>) -> String {
    let mut words = format!("freq={} interval={}", place(&FREQUENCIES, &rule.freq), rule.interval);
    words += &rule.count.map_or(String::new(), |count| format!(" count={count}"));
    words += &rule.until.map_or(String::new(), |until| format!(" until={}", until.timestamp()));
    words += &format!(" wkst={}", place(&WEEKDAYS, &rule.week_start));
    words += &list("bymonth", &rule.by_month, u8::to_string);
    words += &list("bymonthday", &rule.by_month_day, i8::to_string);
    words += &list("byyearday", &rule.by_year_day, i16::to_string);
    words += &list("byweekno", &rule.by_week_no, i8::to_string);
    words += &list("byday", &rule.by_weekday, day);
    words += &list("byhour", &rule.by_hour, u8::to_string);
    words += &list("byminute", &rule.by_minute, u8::to_string);
    words += &list("bysecond", &rule.by_second, u8::to_string);
    words + &list("bysetpos", &rule.by_set_pos, i32::to_string)
}

fn hex(text: &str) -> String {
    text.bytes().map(|byte| format!("{byte:02x}")).collect()
}

/// The bytes of a line `read HEX`.
fn given(line: &str) -> Option<Vec<u8>> {
    let digits = line.strip_prefix("read ")?;
    let digits = if digits == "-" { "" } else { digits };
    (0..digits.len()).step_by(2).map(|at| u8::from_str_radix(digits.get(at..at + 2)?, 16).ok()).collect()
}

fn filled(rule: RRule<Unvalidated>) -> String {
    let start = Tz::UTC.from_utc_datetime(&NaiveDateTime::from_timestamp_opt(0, 0).expect("the first instant"));
    rule.validate(start).map_or("refused".into(), |rule| hex(&rule.to_string()))
}

fn answer(line: &str) -> String {
    let bytes = given(line).expect("a line `read HEX`");
    let text = String::from_utf8(bytes).expect("UTF-8, as the crate's texts are");
    match catch_unwind(|| text.parse::<RRule<Unvalidated>>()) {
        Err(_) => "panic".into(),
        Ok(Err(error)) => format!("error {:?}", error.to_string()),
        Ok(Ok(rule)) => format!("rule {} text {} filled {}", words(&rule), hex(&rule.to_string()), filled(rule)),
    }
}

fn main() {
    std::panic::set_hook(Box::new(|_| {})); // a panic of the crate is an answer too
    let mut out = std::io::stdout().lock();
    for line in std::io::stdin().lock().lines().map_while(Result::ok) {
        writeln!(out, "{}", answer(&line)).expect("standard output can be written");
    }
}
