//! Values by name, in the order in which the names first came.
use crate::value::Value;
use std::collections::hash_map::DefaultHasher;
use std::collections::HashMap;
use std::fmt;
use std::hash::{Hash, Hasher};

/// Up to so many pairs, a name is sought by comparing it with each.
const FEW: usize = 16;

/// Values by name, in the order in which the names first came. Maps are equal whatever their order.
///
/// ```
/// use exprlang::{Map, Value};
/// let mut map = Map::new();
/// map.insert("age", 30);
/// map.insert("name", "Ann");
/// assert_eq!(map["age"], Value::Integer(30));
/// assert_eq!(map.keys().collect::<Vec<_>>(), ["age", "name"]);
/// ```
#[derive(Clone, Default)]
pub struct Map {
    pairs: Vec<(String, Value)>,
    /// The position of each name, once there are more than a few.
    places: HashMap<String, usize>,
}

impl Map {
    /// A map without names.
    #[must_use]
    pub fn new() -> Map {
        Map::default()
    }

    /// How many names it has.
    #[must_use]
    pub fn len(&self) -> usize {
        self.pairs.len()
    }

    /// Whether it has no names.
    #[must_use]
    pub fn is_empty(&self) -> bool {
        self.pairs.is_empty()
    }

    /// The position of a name in the order.
    pub(crate) fn place(&self, name: &str) -> Option<usize> {
        if self.pairs.len() <= FEW {
            self.pairs.iter().position(|pair| pair.0 == name)
        } else {
            self.places.get(name).copied()
        }
    }

    /// The name and the value at a position.
    pub(crate) fn pair(&self, place: usize) -> (&str, &Value) {
        let (name, value) = &self.pairs[place];
        (name, value)
    }

    /// Puts a value under a name, and returns the value that it had.
    pub fn insert(&mut self, name: impl Into<String>, value: impl Into<Value>) -> Option<Value> {
        let (name, value) = (name.into(), value.into());
        match self.place(&name) {
            Some(place) => Some(std::mem::replace(&mut self.pairs[place].1, value)),
            None => {
                self.add(name, value);
                None
            }
        }
    }

    /// Puts a value under a name, and returns the position of the name.
    pub(crate) fn put(&mut self, name: String, value: Value) -> usize {
        let place = self.place(&name);
        match place {
            Some(place) => self.pairs[place].1 = value,
            None => self.add(name, value),
        }
        place.unwrap_or(self.pairs.len() - 1)
    }

    /// Adds a name that isn't there yet.
    fn add(&mut self, name: String, value: Value) {
        let place = self.pairs.len();
        self.pairs.push((name, value));
        if place == FEW {
            self.places = self.pairs.iter().enumerate().map(|(i, pair)| (pair.0.clone(), i)).collect();
        } else if place > FEW {
            self.places.insert(self.pairs[place].0.clone(), place);
        }
    }

    /// The value under a name.
    #[must_use]
    pub fn get(&self, name: &str) -> Option<&Value> {
        self.place(name).map(|place| &self.pairs[place].1)
    }

    /// Whether it has a name.
    #[must_use]
    pub fn contains_key(&self, name: &str) -> bool {
        self.place(name).is_some()
    }

    /// The names, in their order.
    pub fn keys(&self) -> impl Iterator<Item = &String> {
        self.pairs.iter().map(|pair| &pair.0)
    }

    /// The values, in the order of the names.
    pub fn values(&self) -> impl Iterator<Item = &Value> {
        self.pairs.iter().map(|pair| &pair.1)
    }

    /// The names and values, in the order of the names.
    pub fn iter(&self) -> impl Iterator<Item = (&String, &Value)> {
        self.pairs.iter().map(|pair| (&pair.0, &pair.1))
    }
}

impl fmt::Debug for Map {
    fn fmt(&self, f: &mut fmt::Formatter<'_>) -> fmt::Result {
        f.debug_map().entries(self).finish()
    }
}

impl PartialEq for Map {
    fn eq(&self, other: &Map) -> bool {
        self.len() == other.len() && self.iter().all(|(name, value)| other.get(name) == Some(value))
    }
}

impl Eq for Map {}

/// Maps that are equal have the same hash, whatever their order.
impl Hash for Map {
    fn hash<H: Hasher>(&self, state: &mut H) {
        let of_pair = |pair: &(String, Value)| {
            let mut hasher = DefaultHasher::new();
            pair.hash(&mut hasher);
            hasher.finish()
        };
        self.pairs.iter().map(of_pair).fold(0, u64::wrapping_add).hash(state);
    }
}

impl<N: Into<String>, V: Into<Value>> FromIterator<(N, V)> for Map {
    fn from_iter<I: IntoIterator<Item = (N, V)>>(pairs: I) -> Map {
        let mut map = Map::new();
        map.extend(pairs);
        map
    }
}

impl<N: Into<String>, V: Into<Value>> Extend<(N, V)> for Map {
    fn extend<I: IntoIterator<Item = (N, V)>>(&mut self, pairs: I) {
        for (name, value) in pairs {
            self.insert(name, value);
        }
    }
}

impl IntoIterator for Map {
    type Item = (String, Value);
    type IntoIter = std::vec::IntoIter<(String, Value)>;

    fn into_iter(self) -> Self::IntoIter {
        self.pairs.into_iter()
    }
}

impl<'a> IntoIterator for &'a Map {
    type Item = (&'a String, &'a Value);
    type IntoIter = std::iter::Map<std::slice::Iter<'a, (String, Value)>, fn(&'a (String, Value)) -> (&'a String, &'a Value)>;

    fn into_iter(self) -> Self::IntoIter {
        self.pairs.iter().map(|pair| (&pair.0, &pair.1))
    }
}

impl std::ops::Index<&str> for Map {
    type Output = Value;

    /// The value under a name.
    ///
    /// # Panics
    ///
    /// If there is no such name, as maps of the standard library do.
    fn index(&self, name: &str) -> &Value {
        self.get(name).expect("the map has the name")
    }
}
