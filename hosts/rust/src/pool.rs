//! The engines of the process. A call borrows one, on whatever thread it is, and gives it back.
use crate::engine::Engine;
use crate::error::Result;
use std::mem::take;
use std::sync::atomic::{AtomicU64, Ordering};
use std::sync::{Mutex, MutexGuard, PoisonError};

static POOL: Mutex<Pool> = Mutex::new(Pool { idle: Vec::new(), lent: Vec::new() });

struct Pool {
    /// The engines that no call uses. The next call borrows the last one.
    idle: Vec<Engine>,
    lent: Vec<Lent>,
}

/// What the pool knows of an engine that a call uses.
struct Lent {
    engine: u64,
    /// The tokens that were dropped meanwhile. It may have copies of their values.
    gone: Vec<u64>,
}

fn pool() -> MutexGuard<'static, Pool> {
    POOL.lock().unwrap_or_else(PoisonError::into_inner)
}

impl Pool {
    /// The least number that no engine has.
    fn free_number(&self) -> u64 {
        let is_taken = |number: &u64| {
            self.idle.iter().any(|engine| engine.number() == *number) || self.lent.iter().any(|lent| lent.engine == *number)
        };
        (0..).find(|number| !is_taken(number)).unwrap_or(0)
    }

    /// Takes out the engines that have no copies, but for one.
    fn spare(&mut self) -> Vec<Engine> {
        let mut has_spare = false;
        let mut spare = Vec::new();
        for place in (0..self.idle.len()).rev() {
            if self.idle[place].is_empty() && std::mem::replace(&mut has_spare, true) {
                spare.push(self.idle.remove(place));
            }
        }
        spare
    }
}

/// What the copies of a value are found by in the engines. They are dropped with it.
#[derive(Debug)]
pub struct Token {
    number: u64,
    /// A bit for each engine that may have a copy, by the engine's number modulo 64.
    engines: AtomicU64,
}

impl Default for Token {
    fn default() -> Token {
        static NEXT: AtomicU64 = AtomicU64::new(0);
        Token { number: NEXT.fetch_add(1, Ordering::Relaxed), engines: AtomicU64::new(0) }
    }
}

impl Token {
    pub fn number(&self) -> u64 {
        self.number
    }

    /// Notes that an engine gets a copy.
    pub fn note(&self, engine: u64) {
        self.engines.fetch_or(bit(engine), Ordering::Relaxed);
    }
}

fn bit(engine: u64) -> u64 {
    1 << (engine % 64)
}

impl Drop for Token {
    fn drop(&mut self) {
        let engines = *self.engines.get_mut();
        if engines == 0 {
            return;
        }
        let mut pool = pool();
        for lent in pool.lent.iter_mut().filter(|lent| engines & bit(lent.engine) != 0) {
            lent.gone.push(self.number);
        }
        for engine in pool.idle.iter_mut().filter(|engine| engines & bit(engine.number()) != 0) {
            engine.forget(self.number);
        }
        let spare = pool.spare();
        drop(pool);
        drop(spare);
    }
}

/// An engine that a call uses.
struct Lease {
    /// There until the lease ends.
    engine: Option<Engine>,
}

/// Borrows an engine.
pub fn with_engine<T>(work: impl FnOnce(&mut Engine) -> Result<T>) -> Result<T> {
    let mut pool = pool();
    let engine = pool.idle.pop();
    let number = engine.as_ref().map_or_else(|| pool.free_number(), Engine::number);
    pool.lent.push(Lent { engine: number, gone: Vec::new() });
    drop(pool);
    let mut lease = Lease { engine };
    work(lease.engine.get_or_insert_with(|| Engine::open(number)))
}

impl Drop for Lease {
    fn drop(&mut self) {
        let Some(mut engine) = self.engine.take() else { return };
        engine.settle();
        loop {
            let mut pool = pool();
            let place = pool.lent.iter().position(|lent| lent.engine == engine.number());
            let gone = place.map(|place| take(&mut pool.lent[place].gone)).unwrap_or_default();
            if gone.is_empty() {
                place.map(|place| pool.lent.swap_remove(place));
                pool.idle.push(engine);
                let spare = pool.spare();
                drop(pool);
                return drop(spare);
            }
            drop(pool);
            gone.into_iter().for_each(|token| engine.forget(token));
        }
    }
}

#[cfg(test)]
mod tests {
    use super::*;
    use crate::{compile, run, Context, Environment, Value};

    /// How many engines are idle, and how many copies they have.
    fn kept() -> (usize, usize) {
        let pool = pool();
        assert!(pool.lent.is_empty());
        (pool.idle.len(), pool.idle.iter().map(Engine::count).sum())
    }

    // One test, since no other may use the pool meanwhile.
    #[test]
    fn engines_go_with_what_they_keep() {
        let (program, context) = (compile("x + 1").unwrap(), Context::from_iter([("x", 1)]));
        assert_eq!(kept(), (1, 1));
        let meet = std::sync::Barrier::new(3);
        std::thread::scope(|threads| {
            for _ in 0..3 {
                threads.spawn(|| {
                    with_engine(|engine| {
                        meet.wait();
                        program.handle(engine)
                    })
                });
            }
        });
        assert_eq!(kept(), (3, 3));
        assert_eq!(run(&program, &context), Ok(Value::Integer(2)));
        assert_eq!(kept(), (3, 4));
        // A clone shares what they keep, and a clone of a context has no copy until it is run in.
        let (clone, other) = (program.clone(), context.clone());
        drop(program);
        assert_eq!(run(&clone, &other), Ok(Value::Integer(2)));
        assert_eq!(kept(), (3, 5));
        // What is dropped while a call borrows an engine is dropped when it comes back.
        with_engine(|engine| {
            clone.handle(engine)?;
            drop(context);
            drop(other);
            drop(clone);
            assert_eq!(pool().idle.len(), 1);
            assert_eq!(engine.count(), 3);
            Ok(())
        })
        .unwrap();
        assert_eq!(kept(), (1, 0));
        // A function that runs programs has another engine meanwhile, which is then the one that waits without copies.
        let mut env = Environment::new();
        env.add_function("inner", |_| crate::eval("1 + 1", &Context::default()));
        assert_eq!(env.eval("inner() + inner()", &Context::default()), Ok(Value::Integer(4)));
        assert_eq!(kept(), (2, 1));
        drop(env);
        assert_eq!(kept(), (1, 0));
        // After an error, nothing stays.
        assert!(compile("1 +").is_err());
        assert!(crate::eval("x", &Context::from_iter([("x", Value::Month(13))])).is_err());
        assert_eq!(kept(), (1, 0));
    }
}
