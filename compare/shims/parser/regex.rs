// Stands in for the published src/parser/regex.rs, which the source folder lacks.
use super::content_line::PropertyName;
use super::ParseError;
use std::str::FromStr;

pub(crate) fn get_property_name(val: &str) -> Result<Option<PropertyName>, ParseError> {
    match val.find([':', ';']) {
        Some(i) if val.contains(':') => PropertyName::from_str(&val[..i]).map(Some),
        _ => Ok(None),
    }
}
