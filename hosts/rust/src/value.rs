//! Values.
use crate::map::Map;
use crate::moment::DateTimeValue;
use std::fmt;

/// A value of the language. It prints as the language prints it.
///
/// The usual types of Rust become values by `From`, or by `TryFrom` if some of their values are none of the language. Back,
/// a value becomes a scalar by `TryFrom`, or is looked at by the `as_` methods.
///
/// ```
/// use exprlang::{value, Value};
/// use std::time::Duration;
/// let tags: Value = vec!["new", "red"].into();
/// assert_eq!(tags, value!(["new", "red"]));
/// assert_eq!(Value::try_from(Duration::from_secs(90)), Ok(Value::Duration(90_000_000_000)));
/// assert_eq!(i64::try_from(Value::from(7u8)), Ok(7));
/// assert_eq!(Value::try_from(2.0), Ok(Value::Integer(2)));
/// let why = Value::try_from(1.5).unwrap_err().to_string();
/// assert!(why.starts_with("the language has no fractions"));
/// ```
#[derive(Clone, Debug, Default, PartialEq, Eq, Hash)]
#[non_exhaustive]
pub enum Value {
    /// A whole number of 64 bits.
    Integer(i64),
    /// True or false.
    Bool(bool),
    /// Nothing.
    #[default]
    Nil,
    /// A string.
    String(String),
    /// An instant, and what it prints as.
    DateTime(DateTimeValue),
    /// A length of time, in nanoseconds.
    Duration(i64),
    /// A zone, by its name. Programs return zones. A run that reads a zone of a context is an error: hand in the name, and
    /// let the program say `timezone(name)`.
    Timezone(String),
    /// A month, from 1 to 12.
    Month(u32),
    /// A day of the week, from 0, which is Sunday, to 6.
    Weekday(u32),
    /// Values one behind the other.
    Array(Vec<Value>),
    /// Bytes. A `Vec<u8>` becomes an array of integers by `From`, so write `Value::Bytes(bytes)`.
    Bytes(Vec<u8>),
    /// Values by name.
    Map(Map),
    /// A map whose keys are any scalars.
    KeyedMap(Vec<(Value, Value)>),
}

impl Value {
    /// The truth of a `Bool`.
    #[must_use]
    pub fn as_bool(&self) -> Option<bool> {
        if let Value::Bool(truth) = self { Some(*truth) } else { None }
    }

    /// The number of an `Integer`.
    #[must_use]
    pub fn as_integer(&self) -> Option<i64> {
        if let Value::Integer(number) = self { Some(*number) } else { None }
    }

    /// The string of a `String`.
    #[must_use]
    pub fn as_string(&self) -> Option<&str> {
        if let Value::String(text) = self { Some(text) } else { None }
    }

    /// The bytes of `Bytes`.
    #[must_use]
    pub fn as_bytes(&self) -> Option<&[u8]> {
        if let Value::Bytes(bytes) = self { Some(bytes) } else { None }
    }

    /// The instant of a `DateTime`.
    #[must_use]
    pub fn as_datetime(&self) -> Option<&DateTimeValue> {
        if let Value::DateTime(moment) = self { Some(moment) } else { None }
    }

    /// The nanoseconds of a `Duration`.
    #[must_use]
    pub fn as_duration(&self) -> Option<i64> {
        if let Value::Duration(nanoseconds) = self { Some(*nanoseconds) } else { None }
    }

    /// The items of an `Array`.
    #[must_use]
    pub fn as_array(&self) -> Option<&[Value]> {
        if let Value::Array(items) = self { Some(items) } else { None }
    }

    /// The map of a `Map`.
    #[must_use]
    pub fn as_map(&self) -> Option<&Map> {
        if let Value::Map(map) = self { Some(map) } else { None }
    }

    /// The pairs of a `KeyedMap`.
    #[must_use]
    pub fn as_keyed_map(&self) -> Option<&[(Value, Value)]> {
        if let Value::KeyedMap(pairs) = self { Some(pairs) } else { None }
    }

    /// Whether it is `Nil`.
    #[must_use]
    pub fn is_nil(&self) -> bool {
        matches!(self, Value::Nil)
    }

    /// What its kind is called, with an article.
    pub(crate) fn kind(&self) -> &'static str {
        match self {
            Value::Integer(_) => "an Integer",
            Value::Bool(_) => "a Bool",
            Value::Nil => "nil",
            Value::String(_) => "a String",
            Value::DateTime(_) => "a DateTime",
            Value::Duration(_) => "a Duration",
            Value::Timezone(_) => "a Timezone",
            Value::Month(_) => "a Month",
            Value::Weekday(_) => "a Weekday",
            Value::Array(_) => "an Array",
            Value::Bytes(_) => "Bytes",
            Value::Map(_) => "a Map",
            Value::KeyedMap(_) => "a KeyedMap",
        }
    }
}

impl AsRef<Value> for Value {
    fn as_ref(&self) -> &Value {
        self
    }
}

/// What the language prints of the value: a string in quotes.
impl fmt::Display for Value {
    fn fmt(&self, f: &mut fmt::Formatter<'_>) -> fmt::Result {
        match self {
            Value::Integer(number) => write!(f, "{number}"),
            Value::Bool(truth) => write!(f, "{truth}"),
            Value::Nil => f.write_str("nil"),
            Value::String(text) => quote(text, f),
            Value::DateTime(moment) => write!(f, "{moment}"),
            Value::Duration(nanoseconds) => write!(f, "{nanoseconds}ns"),
            Value::Timezone(name) => f.write_str(name),
            Value::Month(number) | Value::Weekday(number) => write!(f, "{number}"),
            Value::Array(items) => list(f, ("[", ", ", "]"), items, |item, f| write!(f, "{item}")),
            Value::Bytes(bytes) => list(f, ("[", " ", "]"), bytes, |byte, f| write!(f, "{byte}")),
            Value::Map(map) => list(f, ("{", ", ", "}"), map, |(name, item), f| write!(f, "{name}: {item}")),
            Value::KeyedMap(pairs) => list(f, ("{", ", ", "}"), pairs, |(key, item), f| write!(f, "{key}: {item}")),
        }
    }
}

fn list<T>(
    f: &mut fmt::Formatter<'_>,
    (front, gap, end): (&str, &str, &str),
    items: impl IntoIterator<Item = T>,
    show: impl Fn(T, &mut fmt::Formatter<'_>) -> fmt::Result,
) -> fmt::Result {
    f.write_str(front)?;
    for (i, item) in items.into_iter().enumerate() {
        if i > 0 {
            f.write_str(gap)?;
        }
        show(item, f)?;
    }
    f.write_str(end)
}

fn quote(text: &str, f: &mut fmt::Formatter<'_>) -> fmt::Result {
    f.write_str("\"")?;
    for c in text.chars() {
        match c {
            '"' => f.write_str("\\\"")?,
            '\\' => f.write_str("\\\\")?,
            '\n' => f.write_str("\\n")?,
            '\r' => f.write_str("\\r")?,
            '\t' => f.write_str("\\t")?,
            other => write!(f, "{other}")?,
        }
    }
    f.write_str("\"")
}
