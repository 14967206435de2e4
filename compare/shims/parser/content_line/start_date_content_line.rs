// Stands in for the published src/parser/content_line/start_date_content_line.rs, which the source folder lacks.
use super::ContentLineCaptures;
use crate::parser::{datetime::datestring_to_date, ParseError};
use crate::Tz;

#[derive(Debug, PartialEq)]
pub(crate) struct StartDateContentLine {
    pub datetime: chrono::DateTime<Tz>,
}

impl TryFrom<&ContentLineCaptures<'_>> for StartDateContentLine {
    type Error = ParseError;
    fn try_from(value: &ContentLineCaptures) -> Result<Self, Self::Error> {
        Ok(Self {
            datetime: datestring_to_date(value.value, None, "DTSTART")?,
        })
    }
}
