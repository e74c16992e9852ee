//! Programs.
use crate::engine::Engine;
use crate::error::{Error, Result};
use crate::limits::Limits;
use crate::pool::{with_engine, Token};
use crate::raw::{Ask, Asked, Handle};
use std::fmt;
use std::str::FromStr;
use std::sync::Arc;

/// A compiled expression. It runs in as many contexts as you like, on any thread, within the limits with which it was
/// compiled.
///
/// A clone is cheap: it shares what engines keep. A string can be parsed as a program, which does the same as [`compile`].
///
/// ```
/// use exprlang::{run, Context, Program, Value};
/// let rule: Program = "price * count > 100".parse().unwrap();
/// assert_eq!(rule.text(), "price * count > 100");
/// assert_eq!(rule.names(), ["count", "price"]);
/// let order = Context::from_iter([("price", 60), ("count", 2)]);
/// assert_eq!(run(&rule.clone(), &order), Ok(Value::Bool(true)));
/// ```
#[derive(Clone)]
pub struct Program {
    shared: Arc<Shared>,
    missing: Missing,
}

/// What the clones of a program share.
struct Shared {
    text: String,
    limits: Option<Limits>,
    names: Vec<String>,
    uses_env: bool,
    token: Token,
}

/// What a name is that a program reads and the context lacks.
#[derive(Clone, Copy, Debug, Default, PartialEq, Eq, Hash)]
#[non_exhaustive]
pub enum Missing {
    /// The run ends with [`Error::ExprError`].
    #[default]
    Error,
    /// It is nil, unless a predicate reads it. There it stays missing, since nil would hide a field of the item.
    Nil,
}

/// Compiles a string within the limits for untrusted strings.
///
/// ```
/// assert!(exprlang::compile("1 +").is_err());
/// # let _ = exprlang::compile("1 + 1").unwrap();
/// ```
///
/// # Errors
///
/// [`Error::PestError`] if the string is no expression. [`Error::ParseError`] for an integer of 2^63 or more.
/// [`Error::LimitError`] at the limits `nesting` and `patterns`. [`Error::MemoryError`] if the engine is out of memory.
pub fn compile(code: &str) -> Result<Program> {
    compile_limited(code, &Limits::default())
}

/// Compiles a string within limits, which hold for each run of the program too.
///
/// ```
/// use exprlang::{compile_limited, Error, Limit, Limits};
/// let low = Limits::default().with_nesting(3);
/// assert!(compile_limited("1 + 2 * 3", &low).is_ok());
/// assert_eq!(compile_limited("((((1))))", &low).err(), Some(Error::LimitError(Limit::Nesting)));
/// ```
///
/// # Errors
///
/// As of [`compile`].
pub fn compile_limited(code: &str, limits: &Limits) -> Result<Program> {
    compiled(code, Some(*limits))
}

/// Compiles a string without limits. It must be trusted: the program takes the time, the memory and the stack that it asks
/// for.
///
/// ```
/// use exprlang::{compile, compile_unlimited, run, Context, Error, Limit, Value};
/// let (code, ctx) = ("len(1..2000000)", Context::default());
/// assert_eq!(run(&compile(code).unwrap(), &ctx), Err(Error::LimitError(Limit::Steps)));
/// assert_eq!(run(&compile_unlimited(code).unwrap(), &ctx), Ok(Value::Integer(2_000_000)));
/// ```
///
/// # Errors
///
/// As of [`compile`], but for limits.
pub fn compile_unlimited(code: &str) -> Result<Program> {
    compiled(code, None)
}

fn compiled(code: &str, limits: Option<Limits>) -> Result<Program> {
    let mut shared = Shared { text: code.into(), limits, names: Vec::new(), uses_env: false, token: Token::default() };
    with_engine(|engine| {
        let program = shared.handle(engine)?;
        shared.names = engine.lines(Ask::Names, program)?;
        shared.uses_env = engine.ask(Ask::UsesEnv, Asked { program, ..Asked::default() })?.number != 0;
        Ok(())
    })?;
    Ok(Program { shared: Arc::new(shared), missing: Missing::default() })
}

impl Shared {
    fn handle(&self, engine: &mut Engine) -> Result<Handle> {
        engine.copy(&self.token, Ask::DropProgram, |engine| {
            engine.limit(self.limits.as_ref())?;
            let asked = Asked { text: self.text.as_bytes(), ..Asked::default() };
            Ok(engine.ask(Ask::Compile, asked)?.program)
        })
    }
}

impl Program {
    /// The string that was compiled. [`Program::to_code`] is the same program in the normal form.
    #[must_use]
    pub fn text(&self) -> &str {
        &self.shared.text
    }

    /// The limits within which the program was compiled and runs, or None if it has none.
    #[must_use]
    pub fn limits(&self) -> Option<&Limits> {
        self.shared.limits.as_ref()
    }

    /// The names that the program reads, in byte order. `#`, the item of a predicate, and the names of its own `let` are
    /// among them. A run hands these values of a context to the engine, and no others, unless the program
    /// [uses `$env`](Program::uses_env).
    #[must_use]
    pub fn names(&self) -> &[String] {
        &self.shared.names
    }

    /// Whether the program reads `$env`, the context as a whole. Then a run hands in all of its values.
    ///
    /// ```
    /// assert!(exprlang::compile("$env['unit price'] > 100").unwrap().uses_env());
    /// assert!(!exprlang::compile("price > 100").unwrap().uses_env());
    /// ```
    #[must_use]
    pub fn uses_env(&self) -> bool {
        self.shared.uses_env
    }

    /// The functions that the program calls, yours and the language's, in byte order. Methods are not among them.
    ///
    /// ```
    /// let rule = exprlang::compile("price(article) * len(xs)").unwrap();
    /// assert_eq!(rule.functions().unwrap(), ["len", "price"]);
    /// ```
    ///
    /// # Errors
    ///
    /// [`Error::MemoryError`] if the engine is out of memory.
    pub fn functions(&self) -> Result<Vec<String>> {
        with_engine(|engine| {
            let program = self.handle(engine)?;
            engine.lines(Ask::Functions, program)
        })
    }

    /// The program as a string in the normal form: brackets only where they are needed, one space round each operator, words
    /// for `and`, `or` and `not`. All strings of a program have the same. It compiles to this very program, and its tree is
    /// never higher than that of [`Program::text`].
    ///
    /// ```
    /// let rule = exprlang::compile("(price*count)>100&&!blocked").unwrap();
    /// assert_eq!(rule.to_code().unwrap(), "price * count > 100 and not blocked");
    /// assert_eq!(rule.to_string(), rule.to_code().unwrap());
    /// ```
    ///
    /// # Errors
    ///
    /// [`Error::MemoryError`] if the engine is out of memory.
    pub fn to_code(&self) -> Result<String> {
        with_engine(|engine| {
            let program = self.handle(engine)?;
            let told = engine.ask(Ask::ProgramText, Asked { program, ..Asked::default() })?;
            Ok(engine.text(&told, Ask::Said))
        })
    }

    /// What a name is that the context of a run lacks.
    #[must_use]
    pub fn missing(&self) -> Missing {
        self.missing
    }

    /// The program with another rule for missing names, as for records whose fields may be missing.
    ///
    /// ```
    /// use exprlang::{compile, run, Context, Missing, Value};
    /// let rule = compile("(status ?? 200) >= 500").unwrap();
    /// assert!(run(&rule, &Context::default()).is_err());
    /// let rule = rule.with_missing(Missing::Nil);
    /// assert_eq!(run(&rule, &Context::default()), Ok(Value::Bool(false)));
    /// ```
    #[must_use]
    pub fn with_missing(mut self, missing: Missing) -> Program {
        self.missing = missing;
        self
    }

    /// The number by which engines know it.
    pub(crate) fn number(&self) -> u64 {
        self.shared.token.number()
    }

    /// The handle of this program in an engine.
    pub(crate) fn handle(&self, engine: &mut Engine) -> Result<Handle> {
        self.shared.handle(engine)
    }
}

/// Compiles a string, as [`compile`] does.
impl FromStr for Program {
    type Err = Error;

    fn from_str(code: &str) -> Result<Program> {
        compile(code)
    }
}

/// Prints what [`Program::to_code`] returns. If the engine is out of memory this is [`fmt::Error`], and `to_string` panics.
impl fmt::Display for Program {
    fn fmt(&self, f: &mut fmt::Formatter<'_>) -> fmt::Result {
        f.pad(&self.to_code().map_err(|_| fmt::Error)?)
    }
}

impl fmt::Debug for Program {
    fn fmt(&self, f: &mut fmt::Formatter<'_>) -> fmt::Result {
        f.debug_tuple("Program").field(&self.shared.text).finish()
    }
}
