// Stands in for the published src/parser/content_line/parameters.rs, which the source folder lacks.
use crate::parser::ParseError;
use std::{collections::HashMap, hash::Hash, str::FromStr};

pub(crate) fn parse_parameters<K: FromStr<Err = ParseError> + Eq + Hash>(
    s: &str,
) -> Result<HashMap<K, String>, ParseError> {
    s.split(';')
        .filter(|p| !p.is_empty())
        .map(|p| {
            let (k, v) = p
                .split_once('=')
                .ok_or_else(|| ParseError::UnrecognizedParameter(p.into()))?;
            Ok((K::from_str(k)?, v.to_string()))
        })
        .collect()
}
