//! Names and their values.
use crate::engine::{Engine, Filled};
use crate::error::{Error, Result};
use crate::map::Map;
use crate::pool::Token;
use crate::program::{Missing, Program};
use crate::raw::{Ask, Asked, Handle, NONE};
use crate::value::Value;
use std::fmt::{self, Display};

/// Names and their values, in which programs run.
///
/// A run hands the values to an engine whose names the program reads. The engine keeps them for the next run, and then
/// takes those again that you changed. So a value that no program reads may be anything.
///
/// ```
/// use exprlang::{compile, run, value, Context, Value};
/// let rule = compile("price * count > 100").unwrap();
/// let mut order = Context::from_iter([("price", 60), ("count", 2)]);
/// assert_eq!(run(&rule, &order), Ok(Value::Bool(true)));
/// order.insert("count", 1);
/// order.insert("tags", value!(["new", nil]));
/// assert_eq!(run(&rule, &order), Ok(Value::Bool(false)));
/// ```
#[derive(Default)]
pub struct Context {
    values: Map,
    /// The version of the context in which each value came, by its position. The first is 1.
    versions: Vec<u64>,
    version: u64,
    /// Finds the copies that have the names that programs read.
    named: Token,
    /// Finds the copies that have all names, in their order, for programs that read `$env`.
    whole: Token,
}

impl Context {
    /// A context without names.
    #[must_use]
    pub fn new() -> Context {
        Context::default()
    }

    /// Puts a value under a name. A run that reads a [`Value::Timezone`] is an error.
    pub fn insert<K: Into<String>, V: Into<Value>>(&mut self, key: K, value: V) {
        self.version += 1;
        let place = self.values.put(key.into(), value.into());
        self.versions.resize(self.values.len(), self.version);
        self.versions[place] = self.version;
    }

    /// The value under a name.
    #[must_use]
    pub fn get(&self, key: &str) -> Option<&Value> {
        self.values.get(key)
    }

    /// The names and their values, in the order in which the names first came.
    #[must_use]
    pub fn values(&self) -> &Map {
        &self.values
    }

    /// The handle, in an engine, of a context for a run of a program.
    pub(crate) fn handle(&self, engine: &mut Engine, program: &Program) -> Result<Handle> {
        let has = |name: &String| self.values.contains_key(name);
        if program.missing() == Missing::Nil && !program.names().iter().all(has) {
            let context = engine.temporary()?;
            self.fill(engine, context, program, &mut Filled::default())?;
            let program = program.handle(engine)?;
            engine.ask(Ask::FillMissing, Asked { program, context, ..Asked::default() })?;
            return Ok(context);
        }
        if self.values.is_empty() {
            return Ok(NONE);
        }
        let token = if program.uses_env() { &self.whole } else { &self.named };
        let context =
            engine.copy(token, Ask::DropContext, |engine| Ok(engine.ask(Ask::Context, Asked::default())?.context))?;
        if !engine.is_filled(token, (program.number(), self.version)) {
            engine.fill(token, |engine, filled| self.fill(engine, context, program, filled))?;
        }
        Ok(context)
    }

    /// Puts the values that a program reads into a context of an engine, but for those that it has.
    fn fill(&self, engine: &mut Engine, context: Handle, program: &Program, filled: &mut Filled) -> Result<()> {
        filled.versions.resize(self.values.len(), 0);
        if program.uses_env() {
            for place in 0..self.values.len() {
                self.set(engine, context, place, filled)?;
            }
        } else {
            for place in program.names().iter().filter_map(|name| self.values.place(name)) {
                self.set(engine, context, place, filled)?;
            }
        }
        filled.last = Some((program.number(), self.version));
        Ok(())
    }

    fn set(&self, engine: &mut Engine, context: Handle, place: usize, filled: &mut Filled) -> Result<()> {
        if filled.versions[place] != self.versions[place] {
            let (name, value) = self.values.pair(place);
            engine.set(context, name, value).map_err(|error| error.of(name))?;
            filled.versions[place] = self.versions[place];
        }
        Ok(())
    }
}

impl fmt::Debug for Context {
    fn fmt(&self, f: &mut fmt::Formatter<'_>) -> fmt::Result {
        f.debug_tuple("Context").field(&self.values).finish()
    }
}

/// The clone has the same values.
impl Clone for Context {
    fn clone(&self) -> Context {
        Context::from(self.values.clone())
    }
}

impl From<Map> for Context {
    fn from(values: Map) -> Context {
        let versions = vec![1; values.len()];
        Context { values, versions, version: 1, ..Context::default() }
    }
}

/// A map becomes a context. Any other value is an [`Error::ExprError`].
impl TryFrom<Value> for Context {
    type Error = Error;

    fn try_from(value: Value) -> Result<Context> {
        match value {
            Value::Map(values) => Ok(Context::from(values)),
            _ => Err(Error::ExprError("a context must be made of a map with names as keys".into())),
        }
    }
}

impl<S: Display, T: Into<Value>> FromIterator<(S, T)> for Context {
    fn from_iter<I: IntoIterator<Item = (S, T)>>(pairs: I) -> Context {
        Context::from(pairs.into_iter().map(|(name, value)| (name.to_string(), value)).collect::<Map>())
    }
}

impl<S: Into<String>, T: Into<Value>> Extend<(S, T)> for Context {
    fn extend<I: IntoIterator<Item = (S, T)>>(&mut self, pairs: I) {
        pairs.into_iter().for_each(|(name, value)| self.insert(name, value));
    }
}
