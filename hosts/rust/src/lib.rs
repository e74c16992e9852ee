//! A small expression language for rules, filters and settings. You hand in a string and values, and get a value or an
//! error.
//!
//! ```
//! use exprlang::{compile, run, Context, Value};
//! # fn main() -> exprlang::Result<()> {
//! let rule = compile("price * count > 100 and not blocked")?;
//! let mut order = Context::default();
//! order.insert("price", 60);
//! order.insert("count", 2);
//! order.insert("blocked", false);
//! assert_eq!(run(&rule, &order)?, Value::Bool(true));
//! # Ok(())
//! # }
//! ```
//!
//! The engine is written in Rattle, which is Rust with contracts, and each of its functions is proved. This crate is plain
//! Rust over it, and is tested. All of its `unsafe` code is in one private module, `raw`.
//!
//! # Limits
//!
//! [`compile`] and [`eval`] take the limits for untrusted strings, [`Limits::untrusted`]. [`compile_limited`] and
//! [`eval_limited`] take others. [`compile_unlimited`] and [`eval_unlimited`] take none. A program that would pass a limit
//! ends with [`Error::LimitError`]. [`run_used`] says what a run used of its limits.
//!
//! # Values
//!
//! The `From` and `TryFrom` implementations of [`Value`] cover the usual types of Rust, and [`value!`] writes nested values.
//! The language has no fractions. So a float becomes a value by `TryFrom` if it is a whole number, and is an error
//! otherwise. Hand in cents, or round it.
//!
//! # Threads
//!
//! All public types are `Send` and `Sync`. A call borrows an engine from a pool and gives it back. So an engine may move
//! between threads, and takes one call at a time. That this is right is tested, not proved. There are as many engines as
//! there are calls at once. Each keeps its own copies of the programs and contexts that it runs. It drops them when you drop
//! the last clone of the program, or the context. An engine without copies is closed, except for one that waits for the next
//! call.
#![warn(missing_docs)]

mod context;
mod convert;
mod engine;
mod environment;
mod error;
mod limits;
mod macros;
mod map;
mod moment;
mod pool;
mod program;
mod raw;
mod value;

pub use context::Context;
pub use environment::{eval, eval_limited, eval_unlimited, run, run_used, Environment, ExprCall};
pub use error::{Error, Place, Result};
pub use limits::{Limit, Limits, Used};
pub use map::Map;
pub use moment::DateTimeValue;
pub use program::{compile, compile_limited, compile_unlimited, Missing, Program};
pub use value::Value;

/// Says which library is linked: its version, the kit and the sources that made it, and whether it is proved.
///
/// ```
/// let version = exprlang::library_version();
/// assert_eq!(version.split(", ").next(), Some(env!("CARGO_PKG_VERSION")));
/// ```
#[must_use]
pub fn library_version() -> &'static str {
    raw::version()
}
