//! The port, through its edge to C, as a C program calls it.

use crate::rules::{Listed, Rule, START};

const RECORD_LENGTH: usize = 2_564;
const CURSOR_LENGTH: usize = 22;
const ENDED: u8 = 102;

pub type Record = [u8; RECORD_LENGTH];
type Cursor = [u8; CURSOR_LENGTH];

// a slice crosses as a pointer and a length
#[link(name = "panel", kind = "static")]
extern "C" {
    fn yomaveludge_check(
        freq: u8,
        interval: u16,
        counted: u8,
        count: u32,
        bounded: u8,
        until: u64,
        wkst: u8,
        start: u64,
        bymonth: *const i16,
        bymonth_length: usize,
        bymonthday: *const i16,
        bymonthday_length: usize,
        byyearday: *const i16,
        byyearday_length: usize,
        byweekno: *const i16,
        byweekno_length: usize,
        bydayn: *const i16,
        bydayn_length: usize,
        bydayw: *const i16,
        bydayw_length: usize,
        byhour: *const i16,
        byhour_length: usize,
        byminute: *const i16,
        byminute_length: usize,
        bysecond: *const i16,
        bysecond_length: usize,
        bysetpos: *const i16,
        bysetpos_length: usize,
        record: *mut u8,
        record_length: usize,
    ) -> u8;

    fn yomaveludge_fresh(record: *const u8, record_length: usize, cursor: *mut u8, cursor_length: usize) -> u8;

    fn yomaveludge_run(
        record: *const u8,
        record_length: usize,
        cursor: *mut u8,
        cursor_length: usize,
        buffer: *mut u64,
        buffer_length: usize,
        moves: u32,
        made: *mut u32,
        handed: *mut usize,
        cause: *mut u8,
    ) -> u8;
}

pub fn record(rule: &Rule) -> Record {
    let ns: Vec<i16> = rule.byday.iter().map(|day| day.0).collect();
    let weekdays: Vec<i16> = rule.byday.iter().map(|day| day.1).collect();
    let none: [i16; 0] = [];
    let mut record = [0; RECORD_LENGTH];
    // SAFETY: each pointer goes with the length of what it points to
    #[rustfmt::skip]
    let refusal = unsafe {
        yomaveludge_check(
            rule.freq, rule.interval, 0, 0, 0, 0, 0, START,
            rule.bymonth.as_ptr(), rule.bymonth.len(),
            none.as_ptr(), 0,
            rule.byyearday.as_ptr(), rule.byyearday.len(),
            rule.byweekno.as_ptr(), rule.byweekno.len(),
            ns.as_ptr(), ns.len(),
            weekdays.as_ptr(), weekdays.len(),
            rule.byhour.as_ptr(), rule.byhour.len(),
            rule.byminute.as_ptr(), rule.byminute.len(),
            none.as_ptr(), 0,
            rule.bysetpos.as_ptr(), rule.bysetpos.len(),
            record.as_mut_ptr(), RECORD_LENGTH,
        )
    };
    assert_eq!(refusal, 0, "{} is accepted", rule.name);
    record
}

fn fresh(record: &Record) -> Cursor {
    let mut cursor = [0; CURSOR_LENGTH];
    // SAFETY: as above
    let refusal =
        unsafe { yomaveludge_fresh(record.as_ptr(), RECORD_LENGTH, cursor.as_mut_ptr(), CURSOR_LENGTH) };
    assert_eq!(refusal, 0);
    cursor
}

/// One call: how it stopped, and how many instants it handed out.
fn run(record: &Record, cursor: &mut Cursor, buffer: &mut [u64]) -> (u8, usize) {
    let (mut made, mut handed, mut cause) = (0, 0, 0);
    // SAFETY: as above
    let stop = unsafe {
        yomaveludge_run(
            record.as_ptr(),
            RECORD_LENGTH,
            cursor.as_mut_ptr(),
            CURSOR_LENGTH,
            buffer.as_mut_ptr(),
            buffer.len(),
            u32::MAX,
            &mut made,
            &mut handed,
            &mut cause,
        )
    };
    assert!(stop <= ENDED, "the run is not refused");
    (stop, handed)
}

/// The first n instants, call by call from a fresh cursor, each call with the buffer's slots or what is left of n.
pub fn list(record: &Record, n: usize, buffer: &mut [u64]) -> Listed {
    let mut cursor = fresh(record);
    let mut listed = Listed::default();
    while listed.count < n {
        let room = buffer.len().min(n - listed.count);
        let (stop, handed) = run(record, &mut cursor, &mut buffer[..room]);
        listed.count += handed;
        listed.sum = listed.sum.wrapping_add(buffer[..handed].iter().sum());
        if stop == ENDED {
            break;
        }
    }
    listed
}
