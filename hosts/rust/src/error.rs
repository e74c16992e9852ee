//! Errors.
use crate::limits::Limit;
use std::fmt;

/// Why a call failed. It prints as a message for people.
#[derive(Clone, Debug, PartialEq, Eq)]
#[non_exhaustive]
pub enum Error {
    /// The string is no expression of the language. [`Place`] says where.
    PestError(Place),
    /// The string has an integer of 2^63 or more.
    ParseError(String),
    /// The run failed: a name, a field or a function that isn't there, a value of the wrong kind, a remainder by zero, a
    /// division, or an error of one of your functions. Or a value that can't be converted or handed in, as a fraction.
    ExprError(String),
    /// A pattern that doesn't build.
    RegexError(String),
    /// The engine was out of memory.
    MemoryError,
    /// The program would have passed one of its [`Limits`](crate::Limits). That is no error of the language: with higher
    /// limits it might return a value, or fail for another reason.
    LimitError(Limit),
    /// What you handed in makes no sense, such as a month of 13 or a function whose name is no word. The message says what.
    MisuseError(String),
}

impl Error {
    /// The error with a name before its message.
    pub(crate) fn of(self, name: &str) -> Error {
        match self {
            Error::ExprError(message) => Error::ExprError(format!("{name}: {message}")),
            Error::MisuseError(message) => Error::MisuseError(format!("{name}: {message}")),
            other => other,
        }
    }
}

/// The position in a string at which it stops to be an expression.
#[derive(Clone, Debug, PartialEq, Eq)]
#[non_exhaustive]
pub struct Place {
    /// The offset in bytes, from 0.
    pub byte: usize,
    /// The line, from 1.
    pub line: usize,
    /// The character in the line, from 1.
    pub column: usize,
    /// The line, and below it a caret under the character.
    pub shown: String,
}

/// The result of a call.
pub type Result<T> = std::result::Result<T, Error>;

impl fmt::Display for Error {
    fn fmt(&self, f: &mut fmt::Formatter<'_>) -> fmt::Result {
        match self {
            Error::PestError(place) => write!(f, "line {}, column {}\n{}", place.line, place.column, place.shown),
            Error::ParseError(message)
            | Error::ExprError(message)
            | Error::RegexError(message)
            | Error::MisuseError(message) => f.write_str(message),
            Error::MemoryError => f.write_str("out of memory"),
            Error::LimitError(limit) => write!(f, "{limit}"),
        }
    }
}

impl std::error::Error for Error {}

/// An [`Error::ExprError`] with this message.
impl From<String> for Error {
    fn from(message: String) -> Error {
        Error::ExprError(message)
    }
}

/// An [`Error::ExprError`] with this message.
impl From<&str> for Error {
    fn from(message: &str) -> Error {
        Error::ExprError(message.into())
    }
}
