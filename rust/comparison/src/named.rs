//! Values by their names, in an order.

use std::ops::{Index, IndexMut};

/// Values, each with a name of its own.
#[derive(Clone, Debug)]
pub struct Named<T>(Vec<(&'static str, T)>);

impl<T> Named<T> {
    /// No value.
    pub const fn new() -> Named<T> {
        Named(Vec::new())
    }

    /// Adds a value after the others.
    pub fn push(&mut self, name: &'static str, value: T) {
        self.0.push((name, value));
    }

    /// Takes a value away.
    pub fn remove(&mut self, name: &str) {
        self.0.retain(|(other, _)| *other != name);
    }

    /// The value with this name.
    pub fn get(&self, name: &str) -> Option<&T> {
        let mut values = self.0.iter();
        values
            .find(|(other, _)| *other == name)
            .map(|(_, value)| value)
    }

    /// The value with this name, to change.
    pub fn get_mut(&mut self, name: &str) -> Option<&mut T> {
        let mut values = self.0.iter_mut();
        values
            .find(|(other, _)| *other == name)
            .map(|(_, value)| value)
    }

    /// The values with these names, which differ, to change.
    pub fn each_mut<const N: usize>(&mut self, names: [&str; N]) -> [&mut T; N] {
        let mut found = [const { None }; N];
        for (other, value) in &mut self.0 {
            if let Some(place) = names.iter().position(|name| name == other) {
                found[place] = Some(value);
            }
        }
        found.map(|value| value.expect("a value with each of the names"))
    }

    /// The names with their values.
    pub fn iter(&self) -> impl Iterator<Item = (&'static str, &T)> {
        self.0.iter().map(|(name, value)| (*name, value))
    }

    /// The names with their values, to change.
    pub fn iter_mut(&mut self) -> impl Iterator<Item = (&'static str, &mut T)> {
        self.0.iter_mut().map(|(name, value)| (*name, value))
    }

    /// The names.
    pub fn names(&self) -> Vec<&'static str> {
        self.iter().map(|(name, _)| name).collect()
    }

    /// Whether there is no value.
    pub fn is_empty(&self) -> bool {
        self.0.is_empty()
    }
}

impl<T> Default for Named<T> {
    fn default() -> Named<T> {
        Named::new()
    }
}

impl<T> Index<&str> for Named<T> {
    type Output = T;

    fn index(&self, name: &str) -> &T {
        let value = self.get(name);
        value.unwrap_or_else(|| panic!("no {name} is there"))
    }
}

impl<T> IndexMut<&str> for Named<T> {
    fn index_mut(&mut self, name: &str) -> &mut T {
        let value = self.get_mut(name);
        value.unwrap_or_else(|| panic!("no {name} is there"))
    }
}

impl<T, const N: usize> From<[(&'static str, T); N]> for Named<T> {
    fn from(values: [(&'static str, T); N]) -> Named<T> {
        Named(values.into())
    }
}

impl<T> FromIterator<(&'static str, T)> for Named<T> {
    fn from_iter<I: IntoIterator<Item = (&'static str, T)>>(values: I) -> Named<T> {
        Named(values.into_iter().collect())
    }
}
