// Stands in for the published src/parser/datetime.rs, which the source folder lacks. UTC only.
use super::ParseError;
use crate::{NWeekday, Tz};
use chrono::{DateTime, TimeZone, Weekday};
use std::str::FromStr;

pub(crate) fn str_to_weekday(d: &str) -> Result<Weekday, ParseError> {
    Ok(match &d.to_uppercase()[..] {
        "MO" => Weekday::Mon,
        "TU" => Weekday::Tue,
        "WE" => Weekday::Wed,
        "TH" => Weekday::Thu,
        "FR" => Weekday::Fri,
        "SA" => Weekday::Sat,
        "SU" => Weekday::Sun,
        _ => return Err(ParseError::InvalidWeekday(d.to_string())),
    })
}

pub(crate) fn parse_weekdays(val: &str) -> Result<Vec<NWeekday>, ParseError> {
    val.split(',').map(NWeekday::from_str).collect()
}

pub(crate) fn datestring_to_date(
    dt: &str,
    _tz: Option<Tz>,
    _property: &str,
) -> Result<DateTime<Tz>, ParseError> {
    let n = chrono::NaiveDateTime::parse_from_str(dt.trim_end_matches('Z'), "%Y%m%dT%H%M%S")
        .map_err(|_| ParseError::InvalidDateTime(dt.into()))?;
    Ok(Tz::UTC.from_utc_datetime(&n))
}
