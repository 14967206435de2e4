//! The ten rules, in numbers that either side takes.

/// 2024-01-01T00:00:00Z
pub const START: u64 = 1_704_067_200;

/// 9999-12-31T23:59:59Z: the port lists up to here, the Rust beyond
pub const LAST: u64 = 253_402_300_799;

/// The buffer that is lent to the port, save for the calls with one slot.
pub const SLOTS: usize = 4_096;

pub struct Rule {
    pub name: &'static str,
    pub freq: u8,
    pub interval: u16,
    pub bymonth: &'static [i16],
    pub byyearday: &'static [i16],
    pub byweekno: &'static [i16],
    /// n, or 0 for every; and the weekday, Monday 0
    pub byday: &'static [(i16, i16)],
    pub byhour: &'static [i16],
    pub byminute: &'static [i16],
    pub bysetpos: &'static [i16],
    /// docs/DIFFERENCES.md says that the Rust lists other instants
    pub rust_is_wrong: bool,
}

const PLAIN: Rule = Rule {
    name: "",
    freq: 0,
    interval: 1,
    bymonth: &[],
    byyearday: &[],
    byweekno: &[],
    byday: &[],
    byhour: &[],
    byminute: &[],
    bysetpos: &[],
    rust_is_wrong: false,
};

const WORKDAYS: [(i16, i16); 5] = [(0, 0), (0, 1), (0, 2), (0, 3), (0, 4)];

pub static RULES: [Rule; 10] = [
    Rule { name: "DAILY", freq: 3, ..PLAIN },
    Rule { name: "WEEKLY;BYDAY=MO,FR", freq: 2, byday: &[(0, 0), (0, 4)], ..PLAIN },
    Rule { name: "MONTHLY;BYDAY=-1FR", freq: 1, byday: &[(-1, 4)], ..PLAIN },
    Rule { name: "YEARLY;BYWEEKNO=20", freq: 0, byweekno: &[20], ..PLAIN },
    Rule { name: "YEARLY;BYYEARDAY=1,100,200", freq: 0, byyearday: &[1, 100, 200], ..PLAIN },
    Rule { name: "HOURLY;INTERVAL=2", freq: 4, interval: 2, ..PLAIN },
    Rule { name: "MINUTELY;INTERVAL=15;BYHOUR=3,4", freq: 5, interval: 15, byhour: &[3, 4], ..PLAIN },
    Rule {
        name: "SECONDLY;INTERVAL=7;BYMINUTE=0",
        freq: 6,
        interval: 7,
        byminute: &[0],
        rust_is_wrong: true,
        ..PLAIN
    },
    Rule {
        name: "MONTHLY;BYSETPOS=-1;BYDAY=MO,TU,WE,TH,FR",
        freq: 1,
        bysetpos: &[-1],
        byday: &WORKDAYS,
        ..PLAIN
    },
    Rule { name: "DAILY;BYMONTH=2;BYHOUR=5,17", freq: 3, bymonth: &[2], byhour: &[5, 17], ..PLAIN },
];

/// How many instants came, and their sum.
#[derive(Clone, Copy, Default, PartialEq)]
pub struct Listed {
    pub count: usize,
    pub sum: u64,
}
