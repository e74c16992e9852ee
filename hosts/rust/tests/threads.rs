//! Threads that come and go leave nothing behind. This has a process of its own, since it looks at its memory and its time.
use exprlang::{compile, run, Context, Program, Value};
use std::fs::read_to_string;
use std::time::{Duration, Instant};

/// How many threads run the program one after another: 20,000, or what EXPRLANG_THREADS says.
fn threads() -> usize {
    std::env::var("EXPRLANG_THREADS").ok().and_then(|it| it.parse().ok()).unwrap_or(20_000)
}

/// The memory of this process, in KB, as Linux has it.
fn memory() -> Option<u64> {
    let pages = read_to_string("/proc/self/statm").ok()?;
    Some(pages.split(' ').nth(1)?.parse::<u64>().ok()? * 4)
}

/// What a run takes in a new thread, at best: the shortest of many short times, in which no other process came between.
fn best(program: &Program, context: &Context) -> Duration {
    let once = || {
        let start = Instant::now();
        (0..200).for_each(|_| assert_eq!(run(program, context), Ok(Value::Bool(true))));
        start.elapsed()
    };
    std::thread::scope(|threads| threads.spawn(|| (0..100).map(|_| once()).min().unwrap()).join().unwrap())
}

#[test]
fn threads_that_come_and_go_leave_nothing_behind() {
    let text = "price * count > 100 and not blocked";
    let program = compile(text).unwrap();
    let order = Context::from_iter([("price", 60), ("count", 2)]);
    let mut order = order.clone();
    order.insert("blocked", false);
    let come_and_go = |count| {
        for _ in 0..count {
            std::thread::scope(|threads| {
                threads.spawn(|| assert_eq!(run(&program, &order), Ok(Value::Bool(true))));
            });
        }
    };
    come_and_go(100);
    let (first, before) = (best(&program, &order), memory());
    come_and_go(threads());
    if let (Some(before), Some(after)) = (before, memory()) {
        assert!(after < before + 100, "{after} KB in place of {before} KB");
    }
    // A busy machine makes times longer, so a new program is measured beside this one.
    let is_as_before = (0..20).any(|_| {
        let now = best(&program, &order);
        assert!(now < first * 4, "200 runs take {now:?} in place of {first:?}");
        now * 5 <= first * 6 || now * 5 <= best(&compile(text).unwrap(), &order) * 6
    });
    assert!(is_as_before, "200 runs take more than 1.2 times {first:?}");
}
