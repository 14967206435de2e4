// Stands in for the published src/parser/utils.rs, which the source folder lacks.
use std::str::FromStr;

pub(crate) fn parse_str_to_vec<T: FromStr + Copy, F: Fn(T) -> bool>(
    val: &str,
    accept: F,
) -> Result<Vec<T>, ()> {
    val.split(',')
        .map(|v| match v.parse::<T>() {
            Ok(v) if accept(v) => Ok(v),
            _ => Err(()),
        })
        .collect()
}
