//! Compiles a rule once, and runs it over the records of standard input, each `NAME=NUMBER ..` on a line.
use exprlang::{compile, run, Context};
use std::io::BufRead;

fn main() -> exprlang::Result<()> {
    let text = std::env::args().nth(1).unwrap_or("price * count > 100".into());
    let rule = compile(&text)?;
    println!("asks for {}", rule.names().join(" "));
    for line in std::io::stdin().lock().lines().map_while(Result::ok) {
        let pairs = line.split_whitespace().filter_map(|pair| pair.split_once('='));
        let record: Context = pairs.map(|(name, number)| (name, number.parse::<i64>().ok())).collect();
        match run(&rule, &record) {
            Ok(value) => println!("{value}"),
            Err(error) => println!("refused: {error}"),
        }
    }
    Ok(())
}
