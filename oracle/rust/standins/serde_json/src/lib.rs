//! Stand-in for the crate serde_json: a property value, a property map and `json!` of one expression.
//! It carries data only; there is no text form.

use std::{borrow::Borrow, collections::BTreeMap};

/// A property value of the three kinds that the Rust stores.
#[derive(Clone, Debug, PartialEq)]
pub enum Value {
    /// Truth.
    Bool(bool),
    /// A whole number of at least 0.
    Number(u64),
    /// Text.
    String(String),
}

impl Value {
    /// The number, where it is one.
    pub fn as_u64(&self) -> Option<u64> {
        match self {
            Value::Number(number) => Some(*number),
            _ => None,
        }
    }

    /// The number, where it is one and fits.
    pub fn as_i64(&self) -> Option<i64> {
        self.as_u64().and_then(|number| i64::try_from(number).ok())
    }
}

impl From<bool> for Value {
    fn from(truth: bool) -> Self {
        Value::Bool(truth)
    }
}

impl From<usize> for Value {
    fn from(number: usize) -> Self {
        Value::Number(number as u64)
    }
}

impl From<String> for Value {
    fn from(text: String) -> Self {
        Value::String(text)
    }
}

/// A map from names to values.
#[derive(Clone, Debug, PartialEq)]
pub struct Map<K: Ord, V> {
    entries: BTreeMap<K, V>,
}

impl<K: Ord, V> Map<K, V> {
    /// The empty map.
    pub fn new() -> Self {
        Map { entries: BTreeMap::new() }
    }

    /// Store a value under a name; the value that stood there comes back.
    pub fn insert(&mut self, name: K, value: V) -> Option<V> {
        self.entries.insert(name, value)
    }

    /// The value under a name.
    pub fn get<Q: Ord + ?Sized>(&self, name: &Q) -> Option<&V>
    where
        K: Borrow<Q>,
    {
        self.entries.get(name)
    }
}

impl<K: Ord, V> Default for Map<K, V> {
    fn default() -> Self {
        Map::new()
    }
}

/// The value that holds one expression.
#[macro_export]
macro_rules! json {
    ($expression:expr) => {
        $crate::Value::from($expression)
    };
}
