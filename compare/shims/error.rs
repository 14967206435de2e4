// Stands in for the published src/error.rs, which the source folder lacks.
pub use crate::parser::ParseError;
pub use crate::validator::ValidationError;
use thiserror::Error;

/// Errors of the crate.
#[derive(Error, Debug, Clone, PartialEq, Eq)]
pub enum RRuleError {
    /// Parse error
    #[error("RRule parsing error: {0}")]
    ParserError(#[from] ParseError),
    /// Validation error
    #[error("RRule validation error: {0}")]
    ValidationError(#[from] ValidationError),
    /// Iterator error
    #[error("RRule iterator error: {0}")]
    IterError(String),
}

impl RRuleError {
    pub(crate) fn new_iter_err<S: AsRef<str>>(msg: S) -> Self {
        Self::IterError(msg.as_ref().to_owned())
    }
}
