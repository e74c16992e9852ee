use exprlang::{eval, value, Context, DateTimeValue, Error, Map, Value};
use std::collections::hash_map::DefaultHasher;
use std::collections::{BTreeMap, HashMap, HashSet};
use std::hash::{Hash, Hasher};
use std::time::{Duration, SystemTime, UNIX_EPOCH};

fn message(error: Error) -> String {
    match error {
        Error::ExprError(message) => message,
        other => panic!("{other:?}"),
    }
}

#[test]
fn numbers_of_rust_become_integers() {
    let small = [Value::from(7i8), 7i16.into(), 7i32.into(), 7i64.into(), 7isize.into(), 7u8.into(), 7u16.into(), 7u32.into()];
    assert!(small.iter().all(|it| *it == Value::Integer(7)));
    assert_eq!(Value::from(7usize), Value::Integer(7));
    assert_eq!(Value::from(usize::MAX), Value::Integer(-1));
    assert_eq!(Value::integer(u64::MAX >> 1), Ok(Value::Integer(i64::MAX)));
    assert_eq!(Value::try_from(7u64), Ok(Value::Integer(7)));
    assert_eq!(Value::try_from(-7i128), Ok(Value::Integer(-7)));
    assert_eq!(Value::try_from(i128::from(i64::MIN)), Ok(Value::Integer(i64::MIN)));
    for misfit in [Value::integer(usize::MAX), Value::try_from(1u64 << 63), Value::try_from(u128::MAX), Value::try_from(i128::MIN)] {
        assert!(message(misfit.unwrap_err()).starts_with("an integer is from -2^63 to 2^63 - 1"));
    }
}

#[test]
fn floats_are_whole_numbers_or_errors() {
    assert_eq!(Value::try_from(3.0), Ok(Value::Integer(3)));
    assert_eq!(Value::try_from(-0.0), Ok(Value::Integer(0)));
    assert_eq!(Value::try_from(-9_223_372_036_854_775_808.0), Ok(Value::Integer(i64::MIN)));
    assert_eq!(Value::try_from(f64::from(0.5f32) * 4.0), Ok(Value::Integer(2)));
    for float in [1.5, -0.1, 1e300, 9_223_372_036_854_775_808.0, f64::NAN, f64::INFINITY, f64::MIN_POSITIVE] {
        let why = message(Value::try_from(float).unwrap_err());
        assert!(why.contains("the language has no fractions"), "{why}");
        assert!(why.contains("cents") && why.contains("round it") && why.contains(&float.to_string()), "{why}");
    }
}

#[test]
fn other_types_of_rust_become_values() {
    assert_eq!(Value::from(&["a", "b"][..]), value!(["a", "b"]));
    assert_eq!(Value::from([Some(1), None]), value!([1, nil]));
    assert_eq!(Value::from(vec![vec![1u8]]), value!([[1]]));
    assert_eq!(Value::from('é'), value!("é"));
    let names = ["zeta", "eta", "theta", "beta", "a", "iota"];
    let many: HashMap<&str, usize> = names.iter().map(|name| (*name, name.len())).collect();
    let sorted: BTreeMap<String, u16> = names.iter().map(|name| (name.to_string(), name.len() as u16)).collect();
    let (many, sorted) = (Value::from(many), Value::from(sorted));
    assert_eq!(many, sorted);
    assert_eq!(many.to_string(), "{a: 1, beta: 4, eta: 3, iota: 4, theta: 5, zeta: 4}");
    assert_eq!(many.to_string(), sorted.to_string());
    assert_eq!(Value::try_from(Duration::from_millis(1_500)), Ok(Value::Duration(1_500_000_000)));
    assert!(message(Value::try_from(Duration::MAX).unwrap_err()).contains("292 years"));
    let context = Context::from_iter([("age", Value::try_from(Duration::from_secs(5400)).unwrap())]);
    assert_eq!(eval("age > duration('1h')", &context), Ok(Value::Bool(true)));
}

#[test]
fn values_become_scalars_of_rust() {
    assert_eq!(bool::try_from(value!(true)), Ok(true));
    assert_eq!(i64::try_from(value!(-7)), Ok(-7));
    assert_eq!((u8::try_from(value!(255)), i8::try_from(value!(-128))), (Ok(255), Ok(-128)));
    assert_eq!((usize::try_from(value!(7)), u64::try_from(value!(7)), i128::try_from(value!(7))), (Ok(7), Ok(7), Ok(7)));
    assert_eq!(String::try_from(value!("a")), Ok("a".into()));
    assert_eq!(Vec::<u8>::try_from(Value::Bytes(vec![1])), Ok(vec![1]));
    assert_eq!(Vec::<Value>::try_from(value!([1])), Ok(vec![value!(1)]));
    assert_eq!(Map::try_from(value!({"a": 1})).unwrap().len(), 1);
    assert_eq!(Duration::try_from(Value::Duration(5)), Ok(Duration::from_nanos(5)));
    assert_eq!(message(u8::try_from(value!(256)).unwrap_err()), "the value is 256, which a u8 can't hold");
    assert_eq!(message(u64::try_from(value!(-1)).unwrap_err()), "the value is -1, which a u64 can't hold");
    assert_eq!(message(i64::try_from(value!("7")).unwrap_err()), "the value is a String, not an Integer");
    assert_eq!(message(String::try_from(value!(7)).unwrap_err()), "the value is an Integer, not a String");
    assert_eq!(message(bool::try_from(value!(nil)).unwrap_err()), "the value is nil, not a Bool");
    assert_eq!(message(Duration::try_from(Value::Duration(-1)).unwrap_err()), "the value is -1ns, which a Duration of Rust can't hold");
}

#[test]
fn the_systems_clock_comes_and_goes() {
    for (time, second, nanosecond) in [
        (UNIX_EPOCH, 0, 0),
        (UNIX_EPOCH + Duration::new(7, 5), 7, 5),
        (UNIX_EPOCH - Duration::new(7, 0), -7, 0),
        (UNIX_EPOCH - Duration::new(6, 999_999_995), -7, 5),
    ] {
        let moment = DateTimeValue::from(time);
        assert_eq!((moment.second(), moment.nanosecond()), (second, nanosecond));
        assert_eq!(moment.to_system_time(), Some(time));
        let context = Context::from_iter([("t", time)]);
        assert_eq!(SystemTime::try_from(eval("t", &context).unwrap()), Ok(time));
    }
    assert_eq!(DateTimeValue::from_timestamp(i64::MAX, u32::MAX).to_system_time(), None);
}

#[test]
fn moments_print_as_out_of_programs() {
    let printed = |second, nanosecond| {
        let moment = DateTimeValue::from_timestamp(second, nanosecond);
        let context = Context::from_iter([("t", moment.clone())]);
        let out = eval("t", &context).unwrap();
        assert_eq!(out, Value::DateTime(moment.clone()));
        assert_eq!(out.to_string(), moment.to_string(), "{second} {nanosecond}");
        let keys = eval("keys(fromPairs([[t, 1]]))[0]", &context).unwrap();
        assert_eq!(keys.to_string(), moment.to_string());
        let Value::KeyedMap(pairs) = eval("fromPairs([[t, 1]])", &context).unwrap() else { panic!("no keyed map") };
        assert_eq!(pairs[0].0.to_string(), moment.to_string());
        moment.to_string()
    };
    assert_eq!(printed(0, 0), "1970-01-01T00:00:00+00:00");
    assert_eq!(printed(-1, 250_000_000), "1969-12-31T23:59:59.250+00:00");
    assert_eq!(printed(951_782_400, 1_000), "2000-02-29T00:00:00.000001+00:00");
    assert_eq!(printed(-62_167_219_201, 1), "-0001-12-31T23:59:59.000000001+00:00");
    assert_eq!(printed(253_402_207_200, 999_999_999), "9999-12-30T22:00:00.999999999+00:00");
    // All days of some centuries, and steps over all years.
    let mut second = -100_000_000_000;
    while second < 253_402_207_200 {
        printed(second, (second.unsigned_abs() % 3 * 500_000_000 % 1_000_000_000) as u32);
        second += 86_400 * 367 + 3_671;
    }
    (0..1_500).for_each(|day| drop(printed(day * 86_400 + 68_169_600, 0)));
    // No moment of the language, which prints anyway.
    assert_eq!(DateTimeValue::from_timestamp(253_402_300_800, 0).to_string(), "+10000-01-01T00:00:00+00:00");
    assert!(!DateTimeValue::from_timestamp(i64::MIN, u32::MAX).to_string().is_empty());
    assert!(!DateTimeValue::from_timestamp(i64::MAX, 0).to_string().is_empty());
}

#[test]
fn values_are_keys_of_sets() {
    fn hash(value: &Value) -> u64 {
        let mut hasher = DefaultHasher::new();
        value.hash(&mut hasher);
        hasher.finish()
    }
    let (one, other) = (value!({"a": 1, "b": [nil, {"c": 2, "d": 3}]}), value!({"b": [nil, {"d": 3, "c": 2}], "a": 1}));
    assert_eq!((&one, hash(&one)), (&other, hash(&other)));
    assert_ne!(hash(&value!({"a": 1, "b": 2})), hash(&value!({"a": 2, "b": 1})));
    let out = eval("t", &Context::from_iter([("t", DateTimeValue::from_timestamp(5, 6))])).unwrap();
    let set = HashSet::from([one, other, value!(1), value!(true), value!("1"), Value::Duration(1), out]);
    assert_eq!(set.len(), 6);
    assert!(set.contains(&Value::DateTime(DateTimeValue::from_timestamp(5, 6))));
}
