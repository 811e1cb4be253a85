//! The loads of a module.
use crate::codemap::FileSpan;
use std::borrow::Borrow;
use std::collections::HashMap;
use std::hash::Hash;

/// A load at the top of a module.
#[derive(Clone, Debug)]
pub struct AstLoad<'a> {
    /// Where the module's name is.
    pub span: FileSpan,
    /// The module that is loaded.
    pub module_id: &'a str,
    /// What is loaded: the name here, and the name there.
    pub symbols: Symbols<&'a str, &'a str>,
}

/// The keys of [`Symbols`] with their values.
pub type Iter<'a, K, V> = std::iter::Map<std::slice::Iter<'a, (K, V)>, fn(&'a (K, V)) -> (&'a K, &'a V)>;

/// A map that keeps the order in which its keys were first given. It has the calls of the original's `SmallMap` that
/// read.
#[derive(Clone, Debug, PartialEq, Eq)]
pub struct Symbols<K, V>(Vec<(K, V)>);

impl<K, V> Symbols<K, V> {
    /// How many keys there are.
    pub fn len(&self) -> usize {
        self.0.len()
    }

    /// Whether there is none.
    pub fn is_empty(&self) -> bool {
        self.0.is_empty()
    }

    /// The keys with their values, in order.
    pub fn iter(&self) -> Iter<'_, K, V> {
        self.0.iter().map(|(key, value)| (key, value))
    }

    /// The keys, in order.
    pub fn keys(&self) -> impl ExactSizeIterator<Item = &K> {
        self.0.iter().map(|(key, _)| key)
    }

    /// The values, in the order of their keys.
    pub fn values(&self) -> impl ExactSizeIterator<Item = &V> {
        self.0.iter().map(|(_, value)| value)
    }

    /// The value of a key. It looks through the keys.
    pub fn get<Q: Eq + ?Sized>(&self, key: &Q) -> Option<&V>
    where
        K: Borrow<Q>,
    {
        self.0.iter().find(|(each, _)| each.borrow() == key).map(|(_, value)| value)
    }

    /// Whether there is such a key. It looks through the keys.
    pub fn contains_key<Q: Eq + ?Sized>(&self, key: &Q) -> bool
    where
        K: Borrow<Q>,
    {
        self.get(key).is_some()
    }
}

impl<K: Clone + Eq + Hash, V> FromIterator<(K, V)> for Symbols<K, V> {
    /// Of a key that is given twice, the place is the first, and the value is the last.
    fn from_iter<I: IntoIterator<Item = (K, V)>>(pairs: I) -> Self {
        let mut places = HashMap::new();
        let mut symbols = Vec::new();
        for (key, value) in pairs {
            let place = *places.entry(key.clone()).or_insert(symbols.len());
            match symbols.get_mut(place) {
                Some((_, old)) => *old = value,
                None => symbols.push((key, value)),
            }
        }
        Symbols(symbols)
    }
}

impl<K, V> IntoIterator for Symbols<K, V> {
    type Item = (K, V);
    type IntoIter = std::vec::IntoIter<(K, V)>;

    fn into_iter(self) -> Self::IntoIter {
        self.0.into_iter()
    }
}

impl<'a, K, V> IntoIterator for &'a Symbols<K, V> {
    type Item = (&'a K, &'a V);
    type IntoIter = Iter<'a, K, V>;

    fn into_iter(self) -> Self::IntoIter {
        self.iter()
    }
}
