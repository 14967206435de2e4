//! The tables, in Markdown.

use crate::clock::timed;
use crate::core::RRule;
use crate::ours;
use crate::rules::{Listed, Rule, RULES, SLOTS};
use crate::theirs;

const INSTANTS: usize = 100_000;
const CALLS: usize = 10_000;
const SIZES: [usize; 4] = [1_000, 10_000, 100_000, 1_000_000];
/// Places in `RULES` of two rules that have a million instants up to 9999, one of them with a list.
const GROWING: [usize; 2] = [0, 6];

/// One way to list a rule, what it listed, and the least nanoseconds an instant.
struct Way {
    list: Box<dyn FnMut() -> Listed>,
    /// how often it is timed in a round: short listings more often
    turns: usize,
    listed: Listed,
    ns: f64,
}

impl Way {
    fn new(n: usize, list: impl FnMut() -> Listed + 'static) -> Way {
        Way { list: Box::new(list), turns: (INSTANTS / n).clamp(1, 10), listed: Listed::default(), ns: f64::MAX }
    }

    fn ours(rule: &Rule, n: usize, slots: usize) -> Way {
        let (record, mut buffer) = (ours::record(rule), vec![0; slots]);
        Way::new(n, move || ours::list(&record, n, &mut buffer))
    }

    fn theirs(rule: &Rule, n: usize, list: fn(&RRule, usize) -> Listed) -> Way {
        let rule = theirs::rule(rule);
        Way::new(n, move || list(&rule, n))
    }

    fn take_turns(&mut self) {
        for _ in 0..self.turns {
            let (listed, ns) = timed(&mut self.list);
            self.listed = listed;
            self.ns = self.ns.min(ns / listed.count as f64);
        }
    }
}

struct Row {
    rule: &'static Rule,
    ours: Way,
    theirs: Way,
    /// the Rust's public way, where it is asked for
    set: Option<Way>,
}

/// A number with a comma before each three digits.
fn grouped(number: usize) -> String {
    let digits = number.to_string();
    let place_of_comma = |i: usize| i > 0 && (digits.len() - i) % 3 == 0;
    let with_comma = |(i, digit)| if place_of_comma(i) { format!(",{digit}") } else { format!("{digit}") };
    digits.chars().enumerate().map(with_comma).collect()
}

fn shown(ns: f64) -> String {
    if ns < 99.95 {
        format!("{ns:.1}")
    } else {
        grouped(ns.round() as usize)
    }
}

/// The answer is whether the sums are as they should be.
fn print_row(row: &Row) -> bool {
    let Row { rule, ours, theirs, set } = row;
    let (sums, right) = match (ours.listed == theirs.listed, rule.rust_is_wrong) {
        (true, _) => ("equal", true),
        (false, true) => ("differ: the Rust is wrong", true),
        (false, false) => ("DIFFER", false),
    };
    let is_alike = set.as_ref().map_or(true, |set| set.listed == theirs.listed);
    let set_cell = match set {
        Some(set) if is_alike => format!(" {} |", shown(set.ns)),
        Some(_) => " DIFFERS |".to_string(),
        None => String::new(),
    };
    let (name, count, ratio) = (rule.name, grouped(ours.listed.count), theirs.ns / ours.ns);
    let (ours, theirs) = (shown(ours.ns), shown(theirs.ns));
    println!("| {name} | {count} | {ours} | {theirs} | ratio {ratio:.1} | {sums} |{set_cell}");
    right && is_alike
}

/// Times the rows in turn, round after round, so that a slow moment of the machine spoils no row; then prints them.
fn print_table(title: &str, top: &str, mut rows: Vec<Row>, rounds: usize) -> bool {
    for _ in 0..rounds {
        let ways = |row: &mut Row| {
            row.ours.take_turns();
            row.theirs.take_turns();
            row.set.iter_mut().for_each(Way::take_turns);
        };
        rows.iter_mut().for_each(ways);
    }
    println!("{title}:\n\n| rule, from 2024-01-01 | {top} |");
    println!("|{}", "---|".repeat(top.split('|').count() + 1));
    let all_right = rows.iter().fold(true, |right, row| print_row(row) && right);
    println!();
    all_right
}

fn listings() -> Vec<Row> {
    let row = |rule| Row {
        rule,
        ours: Way::ours(rule, INSTANTS, SLOTS),
        theirs: Way::theirs(rule, INSTANTS, theirs::list),
        set: Some(Way::theirs(rule, INSTANTS, theirs::list_set)),
    };
    RULES.iter().map(row).collect()
}

fn calls() -> Vec<Row> {
    let row = |rule| Row {
        rule,
        ours: Way::ours(rule, CALLS, 1),
        theirs: Way::theirs(rule, CALLS, theirs::list_by_next),
        set: None,
    };
    RULES.iter().map(row).collect()
}

fn growth() -> Vec<Row> {
    let row = |(rule, n)| Row {
        rule,
        ours: Way::ours(rule, n, SLOTS),
        theirs: Way::theirs(rule, n, theirs::list),
        set: None,
    };
    GROWING.iter().flat_map(|place| SIZES.map(|n| (&RULES[*place], n))).map(row).collect()
}

/// The three tables. The answer is whether all sums are as they should be.
pub fn print(rounds: usize) -> bool {
    let whole = format!("Whole listings, {} instants or up to 9999", grouped(INSTANTS));
    let listed = "instants | ours, ns an instant | the Rust's RRuleIter | | sums";
    let called = "calls | ours with one slot, ns a call | the Rust's next | | sums";
    let listings = print_table(&whole, &format!("{listed} | its RRuleSet"), listings(), rounds);
    let calls = print_table("One instant a call", called, calls(), rounds);
    let growth = print_table("From a short listing to a long one", listed, growth(), rounds);
    listings && calls && growth
}
