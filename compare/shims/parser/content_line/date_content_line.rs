// Stands in for the published src/parser/content_line/date_content_line.rs, which the source folder lacks.
use super::ContentLineCaptures;
use crate::parser::{datetime::datestring_to_date, ParseError};
use crate::Tz;

impl TryFrom<ContentLineCaptures<'_>> for Vec<chrono::DateTime<Tz>> {
    type Error = ParseError;
    fn try_from(value: ContentLineCaptures) -> Result<Self, Self::Error> {
        value
            .value
            .split(',')
            .map(|d| datestring_to_date(d, None, "DATE"))
            .collect()
    }
}
