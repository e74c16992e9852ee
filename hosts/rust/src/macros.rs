//! Values written down, and errors.

/// A value written as in the language: `nil`, arrays in square brackets, maps in braces; anything else is an expression
/// that becomes a [`Value`](crate::Value) by `From`.
///
/// A float is none: the language has no fractions. Hand in cents, or round it, or see `Value::try_from`.
///
/// ```
/// let tags = vec!["a", "b"];
/// let value = exprlang::value!({"code": 100 + 1, "tags": tags, "none": nil, "nested": [1, {"x": true}]});
/// assert_eq!(value.to_string(), r#"{code: 101, tags: ["a", "b"], none: nil, nested: [1, {x: true}]}"#);
/// ```
#[macro_export]
macro_rules! value {
    (nil) => { $crate::Value::Nil };
    ([ $($items:tt)* ]) => { $crate::Value::Array($crate::value_items!([] [] $($items)*)) };
    ({ $($pairs:tt)* }) => {{
        #[allow(unused_mut)]
        let mut map = $crate::Map::new();
        $crate::value_pairs!(map [] $($pairs)*);
        $crate::Value::Map(map)
    }};
    ($other:expr) => { $crate::Value::from($other) };
}

// The items before, those tokens of an item that were read, and the rest.
#[doc(hidden)]
#[macro_export]
macro_rules! value_items {
    ([$($done:expr,)*] []) => { vec![$($done,)*] };
    ([$($done:expr,)*] [$($item:tt)+]) => { vec![$($done,)* $crate::value!($($item)+),] };
    ([$($done:expr,)*] [$($item:tt)+] , $($rest:tt)*) => {
        $crate::value_items!([$($done,)* $crate::value!($($item)+),] [] $($rest)*)
    };
    ([$($done:expr,)*] [$($item:tt)*] $next:tt $($rest:tt)*) => {
        $crate::value_items!([$($done,)*] [$($item)* $next] $($rest)*)
    };
}

// The map, those tokens of a name that were read, and the rest.
#[doc(hidden)]
#[macro_export]
macro_rules! value_pairs {
    ($map:ident []) => {};
    ($map:ident [$($name:tt)+] : $($rest:tt)*) => { $crate::value_pair!($map [$($name)+] [] $($rest)*) };
    ($map:ident [$($name:tt)*] $next:tt $($rest:tt)*) => { $crate::value_pairs!($map [$($name)* $next] $($rest)*) };
}

// The map, a name, those tokens of its value that were read, and the rest.
#[doc(hidden)]
#[macro_export]
macro_rules! value_pair {
    ($map:ident [$($name:tt)+] [$($item:tt)+]) => { $map.insert($($name)+, $crate::value!($($item)+)); };
    ($map:ident [$($name:tt)+] [$($item:tt)+] , $($rest:tt)*) => {
        $map.insert($($name)+, $crate::value!($($item)+));
        $crate::value_pairs!($map [] $($rest)*);
    };
    ($map:ident [$($name:tt)+] [$($item:tt)*] $next:tt $($rest:tt)*) => {
        $crate::value_pair!($map [$($name)+] [$($item)* $next] $($rest)*)
    };
}

/// Leaves the enclosing function with an [`Error::ExprError`](crate::Error::ExprError) with a message.
///
/// ```
/// fn doubled(call: exprlang::ExprCall) -> exprlang::Result<exprlang::Value> {
///     match call.args[..] {
///         [exprlang::Value::Integer(number)] => Ok(exprlang::Value::Integer(number * 2)),
///         _ => exprlang::bail!("{} takes an integer", call.ident),
///     }
/// }
/// ```
#[macro_export]
macro_rules! bail {
    ($($message:tt)+) => {
        return Err($crate::Error::ExprError(format!($($message)+)))
    };
}
