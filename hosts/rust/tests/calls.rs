use exprlang::{
    compile, eval, run, value, Context, DateTimeValue, Environment, Error, ExprCall, Map, Program, Value,
};
use std::sync::atomic::{AtomicI64, Ordering};

fn alone(code: &str) -> exprlang::Result<Value> {
    eval(code, &Context::default())
}

#[test]
fn a_rule_runs() {
    let rule = compile("price * count > 100 and not blocked").unwrap();
    assert_eq!(rule.names(), ["blocked", "count", "price"]);
    let mut order = Context::from_iter([("price", 60), ("count", 2)]);
    assert!(matches!(run(&rule, &order), Err(Error::ExprError(_))));
    order.insert("blocked", false);
    assert_eq!(run(&rule, &order), Ok(Value::Bool(true)));
    order.insert("blocked", true);
    assert_eq!(run(&rule, &order), Ok(Value::Bool(false)));
    assert_eq!(order.get("count"), Some(&Value::Integer(2)));
}

#[test]
fn values_come_and_go() {
    let nested = value!({
        "z": [1, nil, true, "line\n\"quoted\" \u{1f600} \u{0}"],
        "a": {"b": Value::Duration(90_000_000_000), "c": Value::Bytes(vec![0, 255])},
        "m": [Value::Month(3), Value::Weekday(0)],
        "k": Value::KeyedMap(vec![(Value::Integer(7), Value::Nil), (value!("x"), value!([]))]),
    });
    let context = Context::from_iter([("x", nested.clone())]);
    assert_eq!(eval("x", &context), Ok(nested.clone()));
    assert_eq!(eval("x", &context).unwrap().to_string(), nested.to_string());
    assert_eq!(eval("keys(x)", &context), Ok(value!(["z", "a", "m", "k"])));
    assert_eq!(eval("x.z[0] + len(x.k)", &context), Ok(Value::Integer(3)));
    assert_eq!(eval("x.a.c", &context), Ok(Value::Bytes(vec![0, 255])));
}

#[test]
fn moments_come_and_go() {
    let moment = alone("date('1969-12-31T23:59:59.25Z')").unwrap();
    assert_eq!(moment, Value::DateTime(DateTimeValue::from_timestamp(-1, 250_000_000)));
    assert!(moment.to_string().starts_with("1969-12-31"), "{moment}");
    let context = Context::from_iter([("t", moment)]);
    assert_eq!(eval("t.Year()", &context), Ok(Value::Integer(1969)));
    let mut env = Environment::new();
    env.add_zone_rule("New York", "EST5EDT,M3.2.0,M11.1.0").unwrap();
    assert!(matches!(env.add_fixed_zone("UTC", 0), Err(Error::ExprError(_))));
    assert!(matches!(env.eval("now()", &context), Err(Error::ExprError(_))));
    env.set_now(1_709_373_600, 0);
    assert_eq!(env.eval("now().In(timezone('New York')).Hour()", &context), Ok(Value::Integer(5)));
}

#[test]
fn zones_come_and_do_not_go() {
    let mut env = Environment::new();
    env.add_fixed_zone("Asia/Kolkata", 19_800).unwrap();
    env.set_now(1_709_373_600, 0);
    let zone = env.eval("timezone('Asia/Kolkata')", &Context::default()).unwrap();
    assert_eq!(zone, Value::Timezone("Asia/Kolkata".into()));
    fn is_refused(answer: exprlang::Result<Value>) {
        assert!(matches!(&answer, Err(Error::ExprError(why)) if why.contains("zone")), "{answer:?}");
    }
    let nested = value!([1, {"zone": zone.clone()}]);
    for value in [&zone, &nested, &Value::KeyedMap(vec![(zone.clone(), Value::Nil)])] {
        let mut context = Context::from_iter([("x", value.clone())]);
        assert_eq!(eval("1", &context), Ok(Value::Integer(1)));
        is_refused(eval("x", &context));
        is_refused(env.eval("x", &context));
        context.insert("x", "Asia/Kolkata");
        assert_eq!(env.eval("now().In(timezone(x)).Hour()", &context), Ok(Value::Integer(15)));
        // nothing stays of what was being built, and a context that an engine has is refused as well
        context.insert("x", value.clone());
        is_refused(env.eval("x", &context));
        context.insert("x", value!([2]));
        assert_eq!(env.eval("x", &context), Ok(value!([2])));
    }
    let mut calls = Environment::new();
    calls.add_function("zone", move |_| Ok(zone.clone()));
    calls.add_function("name", |call| Ok(call.args[0].to_string().into()));
    is_refused(calls.eval("[7, zone()]", &Context::default()));
    assert_eq!(calls.eval("name(timezone('UTC'))", &Context::default()), Ok(value!("UTC")));
}

#[test]
fn refusals_say_where_and_why() {
    let Err(Error::PestError(place)) = compile("1 +\n  \"é\" * * 2") else {
        panic!("no fault");
    };
    assert_eq!((place.byte, place.line, place.column), (13, 2, 9), "{}", place.shown);
    assert_eq!(place.shown, "  \"é\" * * 2\n        ^");
    assert!(matches!(compile("9223372036854775808"), Err(Error::ParseError(_))));
    assert!(matches!(alone("1 / 0"), Err(Error::ExprError(_))));
    assert!(matches!(alone("'a' matches '('"), Err(Error::RegexError(_))));
    assert!(matches!(Context::try_from(value!([1])), Err(Error::ExprError(_))));
    assert!(!alone("nope").unwrap_err().to_string().is_empty());
}

#[test]
fn long_texts_come_whole() {
    assert_eq!(alone("repeat('ab', 5000)"), Ok(Value::from("ab".repeat(5000))));
    let long = "é".repeat(3000);
    assert_eq!(eval("x", &Context::from_iter([("x", &long)])), Ok(Value::from(&long)));
}

#[test]
fn maps_have_an_order_and_an_equality() {
    let many: Map = (0..100).map(|i| (format!("n{i}"), i)).collect();
    assert_eq!(many.get("n99"), Some(&Value::Integer(99)));
    assert_eq!(many.keys().nth(37).unwrap(), "n37");
    assert_eq!(value!({"a": 1, "b": 2}), value!({"b": 2, "a": 1,}));
    assert_ne!(value!({"a": 1}), value!({"a": 1, "b": 2}));
    let context = Context::try_from(Value::Map(many.clone())).unwrap();
    assert_eq!(eval("$env", &context), Ok(Value::Map(many)));
}

#[test]
fn programs_and_contexts_go_from_thread_to_thread() {
    fn is_shared<T: Send + Sync>() {}
    is_shared::<(Program, Context, Value, Environment)>();
    let program = compile("x * 2 + len(list)").unwrap();
    let shared = Context::from_iter([("x", value!(1)), ("list", value!([1, 2]))]);
    assert_eq!(run(&program, &shared), Ok(Value::Integer(4)));
    std::thread::scope(|threads| {
        for i in 0..4 {
            let (program, shared) = (&program, &shared);
            threads.spawn(move || {
                for j in 0..200 {
                    let mut own = shared.clone();
                    own.insert("x", i * 1000 + j);
                    assert_eq!(run(program, &own), Ok(Value::Integer(2 * i64::from(i * 1000 + j) + 2)));
                    assert_eq!(run(program, shared), Ok(Value::Integer(4)));
                }
            });
        }
    });
    let moved = std::thread::spawn(move || run(&program, &shared).unwrap()).join().unwrap();
    assert_eq!(moved, Value::Integer(4));
}

fn doubled(call: ExprCall) -> exprlang::Result<Value> {
    match call.args.as_slice() {
        [Value::Integer(number)] => Ok(Value::Integer(number * 2)),
        _ => Err(Error::ExprError("double takes an integer".into())),
    }
}

#[test]
fn functions_of_the_host_are_called() {
    let mut env = Environment::new();
    env.add_function("double", doubled);
    let count = AtomicI64::new(0);
    env.add_function("next", move |_| Ok(Value::Integer(count.fetch_add(1, Ordering::Relaxed))));
    let context = Context::from_iter([("x", 5)]);
    for (code, answer) in [
        ("map([1, 2, 3], double(#) + x)", value!([7, 9, 11])),
        ("filter(1..4, double(#) > 4)", value!([3, 4])),
        ("count(1..4, double(#) > 4)", value!(2)),
        ("x > 3 ? double(double(x)) : double()", value!(20)),
        ("next() + next() * 10 + next() * 100", value!(210)),
        ("false and double()", value!(false)),
    ] {
        assert_eq!(env.eval(code, &context), Ok(answer), "{code}");
    }
    assert_eq!(env.eval("1 + double('a')", &context), Err(Error::ExprError("double takes an integer".into())));
    assert!(matches!(eval("double(1)", &context), Err(Error::ExprError(_))));
    env.add_function("len", |call| Ok(Value::Array(call.args)));
    assert_eq!(env.eval("len('a', {'b': nil})", &context), Ok(value!(["a", {"b": nil}])));
    assert_eq!(eval("len('ab')", &context), Ok(value!(2)));
}

#[test]
fn functions_run_programs_themselves() {
    let mut inner = Environment::new();
    inner.add_function("double", doubled);
    let rule = compile("double(n) + 1").unwrap();
    let mut env = Environment::new();
    env.add_function("inner", move |call| inner.run(&rule, &Context::from_iter([("n", call.args[0].clone())])));
    let context = Context::default();
    assert_eq!(env.eval("map(1..4, inner(#))", &context), Ok(value!([3, 5, 7, 9])));
    assert_eq!(env.eval("inner(inner(1)) + inner(2)", &context), Ok(value!(12)));
    std::thread::scope(|threads| {
        for _ in 0..4 {
            threads.spawn(|| assert_eq!(env.eval("sum(map(1..20, inner(#)))", &context), Ok(value!(440))));
        }
    });
}

#[test]
fn versions_are_matched_and_compared() {
    let mut env = Environment::new();
    let context = Context::from_iter([("app", "1.10.0")]);
    let rule = compile("versionMatches(app, '>=1.9, <2') and versionCompare(app, '1.9.0') > 0").unwrap();
    assert_eq!(rule.functions().unwrap(), ["versionCompare", "versionMatches"]);
    assert_eq!(rule.names(), ["app"]);
    assert!(matches!(env.run(&rule, &context), Err(Error::ExprError(_))));
    env.add_versions();
    assert_eq!(env.run(&rule, &context), Ok(Value::Bool(true)));
    assert!(format!("{env:?}").contains("versions: true"));
    for (app, why) in [(Value::from("1.10"), "found \"1.10\""), (Value::from(1), "found an Integer, a String")] {
        match env.run(&rule, &Context::from_iter([("app", app)])) {
            Err(Error::ExprError(message)) => assert!(message.contains(why), "{message}"),
            other => panic!("{other:?}"),
        }
    }
    // the engine runs them itself: the limit on calls of functions is not for them
    let many = "all(1..200, {versionCompare('1.0.0', '1.0.0') == 0})";
    assert_eq!(env.eval(many, &Context::default()), Ok(Value::Bool(true)));
    env.set_now(0, 0);
    env.add_function("versionMatches", |_| Ok(Value::from("mine")));
    assert_eq!(env.eval("versionMatches(app, '1')", &context), Ok(Value::from("mine")));
    assert_eq!(env.eval("versionCompare(app, '1.9.0')", &context), Ok(Value::from(1)));
}
