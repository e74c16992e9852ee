//! Values of the language from those of Rust, and back.
use crate::error::{Error, Result};
use crate::map::Map;
use crate::moment::DateTimeValue;
use crate::value::Value;
use std::collections::{BTreeMap, HashMap};
use std::fmt::Display;
use std::time::{Duration, SystemTime};

impl Value {
    /// The integer of a number of Rust, if it fits 64 bits.
    ///
    /// ```
    /// use exprlang::Value;
    /// assert_eq!(Value::integer(7usize), Ok(Value::Integer(7)));
    /// assert!(Value::integer(usize::MAX).is_err());
    /// ```
    ///
    /// # Errors
    ///
    /// [`Error::ExprError`] for a number below -2^63 or from 2^63 on.
    pub fn integer(number: impl TryInto<i64> + Copy + Display) -> Result<Value> {
        match number.try_into() {
            Ok(number) => Ok(Value::Integer(number)),
            Err(_) => Err(Error::ExprError(format!("an integer is from -2^63 to 2^63 - 1, which {number} is not"))),
        }
    }
}

macro_rules! from {
    ($($(#[$doc:meta])* $given:ty => $by:expr),* $(,)?) => {
        $($(#[$doc])* impl From<$given> for Value {
            fn from(given: $given) -> Value {
                $by(given)
            }
        })*
    };
}

from! {
    i64 => Value::Integer,
    i32 => |number: i32| Value::Integer(number.into()),
    i16 => |number: i16| Value::Integer(number.into()),
    i8 => |number: i8| Value::Integer(number.into()),
    u32 => |number: u32| Value::Integer(number.into()),
    u16 => |number: u16| Value::Integer(number.into()),
    u8 => |number: u8| Value::Integer(number.into()),
    isize => |number: isize| Value::Integer(number as i64),
    /// The number modulo 2^64, read as signed: `usize::MAX` becomes -1. Lengths and indexes of what is in memory are below
    /// 2^63, so they stay what they are. [`Value::integer`] is an error for other numbers.
    usize => |number: usize| Value::Integer(number as i64),
    bool => Value::Bool,
    String => Value::String,
    &String => |text: &String| Value::String(text.clone()),
    &str => |text: &str| Value::String(text.into()),
    char => |c: char| Value::String(c.into()),
    Map => Value::Map,
    DateTimeValue => Value::DateTime,
    SystemTime => |time: SystemTime| Value::DateTime(time.into()),
}

macro_rules! try_from_number {
    ($($given:ty),*) => {
        $(
            /// The integer, as [`Value::integer`].
            impl TryFrom<$given> for Value {
                type Error = Error;

                fn try_from(number: $given) -> Result<Value> {
                    Value::integer(number)
                }
            }
        )*
    };
}

try_from_number!(u64, i128, u128);

/// The integer of a float that is a whole number. Any other is an error, since the language has no fractions.
impl TryFrom<f64> for Value {
    type Error = Error;

    fn try_from(number: f64) -> Result<Value> {
        const END: f64 = 9_223_372_036_854_775_808.0;
        if number.fract() == 0.0 && (-END..END).contains(&number) {
            return Ok(Value::Integer(number as i64));
        }
        let why = "the language has no fractions, and integers of 64 bits alone";
        Err(Error::ExprError(format!("{why}, so {number} can't be handed in: hand in a whole number, as cents, or round it")))
    }
}

/// The length of time, if it is within 292 years.
impl TryFrom<Duration> for Value {
    type Error = Error;

    fn try_from(length: Duration) -> Result<Value> {
        match i64::try_from(length.as_nanos()) {
            Ok(nanoseconds) => Ok(Value::Duration(nanoseconds)),
            Err(_) => Err(Error::ExprError(format!("a Duration is within 292 years, which {length:?} is not"))),
        }
    }
}

impl<V: Into<Value>> From<Vec<V>> for Value {
    fn from(items: Vec<V>) -> Value {
        Value::Array(items.into_iter().map(Into::into).collect())
    }
}

impl<V: Into<Value> + Clone> From<&[V]> for Value {
    fn from(items: &[V]) -> Value {
        Value::Array(items.iter().cloned().map(Into::into).collect())
    }
}

impl<V: Into<Value>, const N: usize> From<[V; N]> for Value {
    fn from(items: [V; N]) -> Value {
        Value::Array(items.into_iter().map(Into::into).collect())
    }
}

impl<V: Into<Value>> From<Option<V>> for Value {
    fn from(item: Option<V>) -> Value {
        item.map_or(Value::Nil, Into::into)
    }
}

/// The map in the order of its names.
impl<N: Into<String>, V: Into<Value>> From<BTreeMap<N, V>> for Map {
    fn from(pairs: BTreeMap<N, V>) -> Map {
        pairs.into_iter().collect()
    }
}

/// The map in the order of its names, since a `HashMap` has none.
impl<N: Into<String>, V: Into<Value>, S> From<HashMap<N, V, S>> for Map {
    fn from(pairs: HashMap<N, V, S>) -> Map {
        pairs.into_iter().map(|(name, value)| (name.into(), value)).collect::<BTreeMap<String, V>>().into()
    }
}

/// The map in the order of its names.
impl<N: Into<String>, V: Into<Value>> From<BTreeMap<N, V>> for Value {
    fn from(pairs: BTreeMap<N, V>) -> Value {
        Value::Map(pairs.into())
    }
}

/// The map in the order of its names, since a `HashMap` has none.
impl<N: Into<String>, V: Into<Value>, S> From<HashMap<N, V, S>> for Value {
    fn from(pairs: HashMap<N, V, S>) -> Value {
        Value::Map(pairs.into())
    }
}

impl<N: Into<String>, V: Into<Value>> FromIterator<(N, V)> for Value {
    fn from_iter<I: IntoIterator<Item = (N, V)>>(pairs: I) -> Value {
        Value::Map(pairs.into_iter().collect())
    }
}

fn other_kind<T>(value: &Value, wanted: &str) -> Result<T> {
    Err(Error::ExprError(format!("the value is {}, not {wanted}", value.kind())))
}

macro_rules! try_into {
    ($($kind:ident($part:ident) => $wanted:ty: $name:literal),* $(,)?) => {
        $(
            #[doc = concat!("What is in ", $name, ". A value of another kind is an [`Error::ExprError`].")]
            impl TryFrom<Value> for $wanted {
                type Error = Error;

                fn try_from(value: Value) -> Result<$wanted> {
                    match value {
                        Value::$kind($part) => Ok($part),
                        other => other_kind(&other, $name),
                    }
                }
            }
        )*
    };
}

try_into! {
    Bool(truth) => bool: "a Bool",
    Integer(number) => i64: "an Integer",
    String(text) => String: "a String",
    Bytes(bytes) => Vec<u8>: "Bytes",
    DateTime(moment) => DateTimeValue: "a DateTime",
    Array(items) => Vec<Value>: "an Array",
    Map(map) => Map: "a Map",
}

macro_rules! try_into_number {
    ($($wanted:ty),*) => {
        $(
            /// The number of an Integer, if it fits. Else, or for a value of another kind, it is an [`Error::ExprError`].
            impl TryFrom<Value> for $wanted {
                type Error = Error;

                fn try_from(value: Value) -> Result<$wanted> {
                    let number = i64::try_from(value)?;
                    let misfit = || format!("the value is {number}, which a {} can't hold", stringify!($wanted));
                    <$wanted>::try_from(number).map_err(|_| Error::ExprError(misfit()))
                }
            }
        )*
    };
}

try_into_number!(i8, i16, i32, i128, isize, u8, u16, u32, u64, u128, usize);

/// The length of a Duration that isn't negative. Else, or for a value of another kind, it is an [`Error::ExprError`].
impl TryFrom<Value> for Duration {
    type Error = Error;

    fn try_from(value: Value) -> Result<Duration> {
        match value {
            Value::Duration(nanoseconds) => match u64::try_from(nanoseconds) {
                Ok(nanoseconds) => Ok(Duration::from_nanos(nanoseconds)),
                Err(_) => Err(Error::ExprError(format!("the value is {nanoseconds}ns, which a Duration of Rust can't hold"))),
            },
            other => other_kind(&other, "a Duration"),
        }
    }
}

/// The instant of a DateTime. One that the system's clock can't hold is an [`Error::ExprError`], as is another kind.
impl TryFrom<Value> for SystemTime {
    type Error = Error;

    fn try_from(value: Value) -> Result<SystemTime> {
        let moment = DateTimeValue::try_from(value)?;
        let misfit = || Error::ExprError(format!("the system's clock can't hold {moment}"));
        moment.to_system_time().ok_or_else(misfit)
    }
}
