use exprlang::{compile, compile_unlimited, eval, run, value, Context, DateTimeValue, Environment, Error, Limits, Missing, Program, Value};

#[test]
fn a_program_says_what_it_reads() {
    let program = compile("let total = price * count; total > limit(customer) and len($env.tags) > 0").unwrap();
    assert!(program.uses_env());
    assert_eq!(program.functions().unwrap(), ["len", "limit"]);
    for name in ["price", "count", "customer"] {
        assert!(program.names().iter().any(|it| it == name), "{name}");
    }
    let plain = compile("xs | filter(# > y) | len()").unwrap();
    assert!(!plain.uses_env());
    assert_eq!(plain.functions().unwrap(), ["filter", "len"]);
    assert_eq!(plain.text(), "xs | filter(# > y) | len()");
    assert_eq!(compile("1").unwrap().functions().unwrap(), Vec::<String>::new());
}

#[test]
fn a_program_prints_in_the_normal_form() {
    for (text, form) in [
        ("(a+b)*c", "(a + b) * c"),
        ("a+(b*c)", "a + b * c"),
        ("!(x in xs)&&y", "not (x in xs) and y"),
        ("filter(xs,#.age>=18)|len()", "filter(xs, {.age >= 18}) | len()"),
        ("let n=1;n ?? 0x10", "let n = 1;\nn ?? 16"),
        ("'say \"é\"' + \"\0\"", "\"say \\\"é\\\"\" + \"\0\""),
    ] {
        let program = compile(text).unwrap();
        assert_eq!((program.to_code().as_deref(), program.text()), (Ok(form), text));
        assert_eq!(program.to_string(), form);
        assert_eq!(compile(form).unwrap().to_code().as_deref(), Ok(form));
    }
    assert_eq!(format!("{:>5}|", compile("(1)").unwrap()), "    1|");
    let many = vec!["1"; 50_000];
    let long = compile_unlimited(&many.join("+")).unwrap();
    assert_eq!(long.to_code(), Ok(many.join(" + ")));
}

#[test]
fn a_program_is_parsed_and_cloned() {
    let parsed: Program = "x * 2".parse().unwrap();
    assert!(matches!("x *".parse::<Program>(), Err(Error::PestError(_))));
    let limits = Limits::untrusted();
    assert_eq!((parsed.limits(), parsed.missing()), (Some(&limits), Missing::Error));
    let clone = parsed.clone().with_missing(Missing::Nil);
    assert_eq!((clone.text(), clone.missing(), parsed.missing()), ("x * 2", Missing::Nil, Missing::Error));
    drop(parsed);
    assert_eq!(run(&clone, &Context::from_iter([("x", 4)])), Ok(Value::Integer(8)));
    assert_eq!(format!("{clone:?}"), r#"Program("x * 2")"#);
}

#[test]
fn a_value_that_no_program_reads_may_be_anything() {
    let mut record = Context::from_iter([("x", value!(2))]);
    record.insert("zone", Value::Timezone("UTC".into()));
    record.insert("month", Value::Month(13));
    record.insert("moment", DateTimeValue::from_timestamp(i64::MAX, 0));
    assert_eq!(eval("x + 1", &record), Ok(Value::Integer(3)));
    for (code, why) in [
        ("zone", "zone: a zone can't be handed in"),
        ("month", "month: a month must be a number from 1 to 12"),
        ("moment", "moment: the seconds and nanoseconds of a DateTime are out of range"),
        ("len($env)", "zone: a zone can't be handed in"),
    ] {
        let error = eval(code, &record).unwrap_err();
        assert!(error.to_string().starts_with(why), "{error}");
        assert_eq!(eval("x + 1", &record), Ok(Value::Integer(3)), "after {code}");
    }
    record.insert("zone", "UTC");
    record.insert("month", Value::Month(12));
    record.insert("moment", DateTimeValue::from_timestamp(0, 0));
    assert_eq!(eval("len($env)", &record), Ok(Value::Integer(4)));
    assert_eq!(eval("[month, zone]", &record), Ok(value!([Value::Month(12), "UTC"])));
}

#[test]
fn a_context_is_read_as_it_is() {
    let mut context = Context::new();
    let (all, b, sum) = (compile("keys($env)").unwrap(), compile("b").unwrap(), compile("a + b").unwrap());
    assert_eq!(run(&all, &context), Ok(value!([])));
    context.insert("c", 3);
    context.insert("b", 2);
    assert_eq!(run(&b, &context), Ok(Value::Integer(2)));
    assert!(run(&sum, &context).is_err());
    context.insert("a", 1);
    // What ran before changes neither the names nor their order.
    assert_eq!(run(&all, &context), Ok(value!(["c", "b", "a"])));
    assert_eq!(run(&sum, &context), Ok(Value::Integer(3)));
    context.insert("b", 20);
    assert_eq!((run(&sum, &context), run(&b, &context)), (Ok(Value::Integer(21)), Ok(Value::Integer(20))));
    context.extend([("d", 4)]);
    assert_eq!(run(&all, &context), Ok(value!(["c", "b", "a", "d"])));
    assert_eq!(eval("$env", &context), Ok(Value::Map(context.values().clone())));
    assert_eq!(format!("{:?}", Context::from_iter([("a", 1)])), r#"Context({"a": Integer(1)})"#);
    let clone = context.clone();
    context.insert("b", 0);
    assert_eq!((run(&b, &clone), run(&b, &context)), (Ok(Value::Integer(20)), Ok(Value::Integer(0))));
}

#[test]
fn missing_names_are_nil_if_asked_for() {
    let nil = |code: &str| compile(code).unwrap().with_missing(Missing::Nil);
    let mut record = Context::from_iter([("path", "/")]);
    let status = nil("(status ?? 200) >= 500");
    assert_eq!(run(&status, &record), Ok(Value::Bool(false)));
    assert_eq!(run(&status, &Context::new()), Ok(Value::Bool(false)));
    assert!(matches!(eval("(status ?? 200) >= 500", &record), Err(Error::ExprError(_))));
    record.insert("status", 503);
    assert_eq!(run(&status, &record), Ok(Value::Bool(true)));
    // The context is as it was, for other programs too.
    assert_eq!(run(&nil("user == nil and path == '/'"), &record), Ok(Value::Bool(true)));
    assert_eq!(eval("keys($env)", &record), Ok(value!(["path", "status"])));
    assert!(eval("user", &record).is_err());
    // A predicate's bare name may be a field of the item.
    let adults = nil("count(users, {age > 17})");
    record.insert("users", value!([{"age": 20}, {"age": 3}]));
    assert_eq!(run(&adults, &record), Ok(Value::Integer(1)));
    assert!(run(&nil("count(users, {height > 17})"), &record).is_err());
    // Functions of the host see it too.
    let mut env = Environment::new();
    env.add_function("shown", |call| Ok(call.args[0].to_string().into()));
    assert_eq!(env.run(&nil("[shown(user), shown(status)]"), &record), Ok(value!(["nil", "503"])));
}

#[test]
fn misuse_says_what_was_wrong() {
    let nothing = Context::new();
    let mut env = Environment::new();
    env.add_function("not a word", |_| Ok(Value::Nil));
    assert_eq!(env.eval("1", &nothing), Err(Error::MisuseError("not a word: the name is not a word of the language".into())));
    let mut env = Environment::new();
    env.set_now(0, 1_000_000_000);
    let why = "the seconds and nanoseconds of a DateTime are out of range";
    assert_eq!(env.eval("1", &nothing), Err(Error::MisuseError(why.into())));
    env.set_now(0, 0);
    assert_eq!(env.eval("now().Year()", &nothing), Ok(Value::Integer(1970)));
    let why = |value: Value| eval("x", &Context::from_iter([("x", value!([1, value]))])).unwrap_err();
    assert_eq!(why(Value::Month(0)), Error::MisuseError("x: a month must be a number from 1 to 12".into()));
    assert_eq!(why(Value::Weekday(7)), Error::MisuseError("x: a day of the week must be a number from 0 to 6".into()));
    let mut env = Environment::new();
    env.add_function("f", |_| Ok(Value::Weekday(7)));
    assert_eq!(env.eval("f()", &nothing), Err(Error::MisuseError("a day of the week must be a number from 0 to 6".into())));
    assert_eq!(env.eval("1 + 1", &nothing), Ok(Value::Integer(2)));
}

#[test]
fn a_function_that_panics_leaves_all_well() {
    let mut env = Environment::new();
    env.add_function("panics", |_| panic!("on purpose"));
    env.add_function("same", |call| Ok(call.args[0].clone()));
    let context = Context::from_iter([("x", 7)]);
    for _ in 0..3 {
        let caught = std::panic::catch_unwind(std::panic::AssertUnwindSafe(|| env.eval("same(x) + panics()", &context)));
        assert!(caught.is_err());
        assert_eq!(env.eval("same(x) + same(x)", &context), Ok(Value::Integer(14)));
    }
}

#[test]
fn programs_run_within_functions_of_themselves() {
    let mut inner = Environment::new();
    inner.add_function("next", |call| eval("n + 1", &Context::from_iter([("n", call.args[0].clone())])));
    let calls = std::sync::Arc::new(std::sync::atomic::AtomicUsize::new(0));
    let counted = calls.clone();
    let mut env = Environment::new();
    env.add_function("twice", move |call| {
        counted.fetch_add(1, std::sync::atomic::Ordering::Relaxed);
        inner.eval("next(next(n))", &Context::from_iter([("n", call.args[0].clone())]))
    });
    assert_eq!(env.eval("sum(map(1..30, twice(#)))", &Context::new()), Ok(Value::Integer(525)));
    assert_eq!(calls.load(std::sync::atomic::Ordering::Relaxed), 30);
}
