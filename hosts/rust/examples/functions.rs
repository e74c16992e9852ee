//! A host with a function of its own: what an order costs, by the prices of a shop.
use exprlang::{compile, Context, Environment, Error, Value};
use std::collections::HashMap;

fn main() -> exprlang::Result<()> {
    let text = std::env::args().nth(1).unwrap_or("sum(map(articles, price(#)))".into());
    let rule = compile(&text)?;
    let prices = HashMap::from([("pen", 150), ("ink", 900)]);
    let mut shop = Environment::new();
    shop.add_function("price", move |call| match call.args.as_slice() {
        [Value::String(article)] => match prices.get(article.as_str()) {
            Some(cents) => Ok(Value::Integer(*cents)),
            None => Err(Error::ExprError(format!("no article {article}"))),
        },
        _ => Err(Error::ExprError("price takes an article".into())),
    });
    let order = Context::from_iter([("articles", vec!["pen", "ink", "pen"])]);
    match shop.run(&rule, &order) {
        Ok(value) => println!("{value}"),
        Err(error) => println!("refused: {error}"),
    }
    Ok(())
}
