//! Times the port and the Rust crate in one process. The crate's own modules are compiled in, so that its private
//! `RRuleIter` is in reach; `bench/run` builds this beside the oracle.
#![allow(dead_code, unused_imports)]

#[path = "../core/mod.rs"]
mod core;
#[path = "../error.rs"]
mod error;
#[path = "../iter/mod.rs"]
mod iter;
#[path = "../numbered.rs"]
mod numbered;
#[path = "../parser/mod.rs"]
mod parser;
#[path = "../validator/mod.rs"]
mod validator;

mod clock;
mod ours;
mod rules;
mod tables;
mod theirs;

pub use crate::core::{Frequency, NWeekday, RRule, RRuleResult, RRuleSet, Tz};
pub use crate::core::{Unvalidated, Validated};
pub use chrono::Weekday;
pub use error::{ParseError, RRuleError, ValidationError};
pub use iter::RRuleSetIter;

use rules::{Listed, Rule, RULES};
use std::process::exit;

/// What callgrind counts: one listing by one side, and nothing else that grows with it.
fn listing(side: &str, rule: &Rule, n: usize) -> Option<Listed> {
    match side {
        "ours" => Some(ours::list(&ours::record(rule), n, &mut vec![0; rules::SLOTS])),
        "ours-one" => Some(ours::list(&ours::record(rule), n, &mut [0])),
        "rust" => Some(theirs::list(&theirs::rule(rule), n)),
        _ => None,
    }
}

fn list_one(args: &[&str]) -> Option<Listed> {
    let [side, rule, n] = args else { return None };
    let rule = RULES.get(rule.parse::<usize>().ok()?)?;
    listing(side, rule, n.parse().ok()?)
}

fn main() {
    let args: Vec<String> = std::env::args().skip(1).collect();
    let args: Vec<&str> = args.iter().map(String::as_str).collect();
    match args.split_first() {
        Some((&"names", _)) => RULES.iter().for_each(|rule| println!("{}", rule.name)),
        Some((&"list", rest)) => match list_one(rest) {
            Some(listed) => println!("{} {}", listed.count, listed.sum),
            None => exit(2),
        },
        Some((&"tables", rest)) => {
            let rounds = rest.first().and_then(|text| text.parse().ok()).unwrap_or(15);
            exit(if tables::print(rounds) { 0 } else { 1 });
        }
        _ => {
            eprintln!("usage: bench tables [ROUNDS] | names | list ours|ours-one|rust RULE N");
            exit(2);
        }
    }
}
