//! The original, and ours from Rust (the feature `ours`): PROGRAM PART TURNS CODE [NAME=CODE].. does a part, `compile` or `run`, so
//! many times. Ours has limits, but for parts that end in `-unlimited`. The host adds a function `twice`. The answer goes to standard
//! output, and the nanoseconds of all turns to standard error.

#[cfg(not(feature = "ours"))]
use expr::compile as compile_unlimited;
#[cfg(feature = "ours")]
use expr::compile_unlimited;
use expr::{Context, Environment, Error, Program, Result, Value, compile, eval};
use std::hint::black_box;
use std::time::Instant;

/// The names and values of words `NAME=CODE`.
fn names_of(words: &[String]) -> Context {
    let mut names = Context::default();
    for word in words {
        let (name, value) = word.split_once('=').unwrap();
        names.insert(name, eval(value, &Context::default()).unwrap());
    }
    names
}

fn compiled(part: &str, code: &str) -> Result<Program> {
    if part.ends_with("-unlimited") { compile_unlimited(code) } else { compile(code) }
}

fn main() {
    let words: Vec<String> = std::env::args().collect();
    let (part, turns, code) = (&words[1], words[2].parse().unwrap(), &words[3]);
    let names = names_of(&words[4..]);
    let mut environment = Environment::new();
    environment.add_function("twice", |call| match call.args.as_slice() {
        [Value::Integer(number)] => Ok(Value::Integer(2 * number)),
        _ => Err(Error::ExprError("twice takes an Integer".into())),
    });
    let program = compiled(part, code).unwrap();
    let start = Instant::now();
    if part.starts_with("compile") {
        for _ in 0..turns {
            let _ = black_box(compiled(part, black_box(code)));
        }
    } else {
        for _ in 0..turns {
            let _ = black_box(environment.run(&program, &names));
        }
    }
    eprintln!("{}", start.elapsed().as_nanos());
    println!("{}", environment.run(&program, &names).unwrap());
}
