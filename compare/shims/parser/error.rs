// Stands in for the published src/parser/error.rs, which the source folder lacks: the cases that the other files use.
use thiserror::Error;

/// Parse errors.
#[derive(Error, Debug, Clone, PartialEq, Eq)]
#[allow(missing_docs)]
pub enum ParseError {
    #[error("`{0}` is not a valid frequency.")]
    InvalidFrequency(String),
    #[error("`{0}` is not a valid weekday.")]
    InvalidWeekday(String),
    #[error("`{0}` is not a valid weekday start.")]
    InvalidWeekdayStart(String),
    #[error("`{0}` is not a valid INTERVAL.")]
    InvalidInterval(String),
    #[error("`{0}` is not a valid COUNT.")]
    InvalidCount(String),
    #[error("`{0}` is not a valid BYSETPOS.")]
    InvalidBySetPos(String),
    #[error("`{0}` is not a valid BYMONTH.")]
    InvalidByMonth(String),
    #[error("`{0}` is not a valid BYMONTHDAY.")]
    InvalidByMonthDay(String),
    #[error("`{0}` is not a valid BYYEARDAY.")]
    InvalidByYearDay(String),
    #[error("`{0}` is not a valid BYWEEKNO.")]
    InvalidByWeekNo(String),
    #[error("`{0}` is not a valid BYHOUR.")]
    InvalidByHour(String),
    #[error("`{0}` is not a valid BYMINUTE.")]
    InvalidByMinute(String),
    #[error("`{0}` is not a valid BYSECOND.")]
    InvalidBySecond(String),
    #[error("`{0}` is not a valid BYEASTER.")]
    InvalidByEaster(String),
    #[error("invalid datetime `{0}`")]
    InvalidDateTime(String),
    #[error("missing property `{0}`")]
    MissingProperty(String),
    #[error("property parameters `{0}` not supported")]
    PropertyParametersNotSupported(String),
    #[error("unrecognized parameter `{0}`")]
    UnrecognizedParameter(String),
    #[error("unrecognized property name `{0}`")]
    UnrecognizedPropertyName(String),
    #[error("missing DTSTART")]
    MissingStartDate,
    #[error("missing RRULE or RDATE")]
    MissingDateGenerationRules,
}
