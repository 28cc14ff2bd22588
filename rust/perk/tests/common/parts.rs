//! The parts of a text file of vectors.

/// A part: its lines, each a name and a value.
pub struct Part(Vec<(&'static str, &'static str)>);

impl Part {
    /// Its name, which its first line has.
    pub fn name(&self) -> &'static str {
        self.0[0].1
    }

    /// The values of the lines with this name.
    pub fn values<'a>(&'a self, name: &'a str) -> impl Iterator<Item = &'static str> + 'a {
        let lines = self.0.iter().filter(move |(other, _)| *other == name);
        lines.map(|(_, value)| *value)
    }

    /// The number in the one line with this name.
    pub fn number(&self, name: &str) -> usize {
        let mut values = self.values(name);
        let value = values.next().expect("a line");
        assert!(values.next().is_none(), "{}: {name}", self.name());
        value.parse().expect("a number")
    }
}

/// The parts that begin with a line of this name, at least one. Every part begins
/// with a line of one of the names in `kinds`.
pub fn parts(text: &'static str, kinds: &[&str], kind: &str) -> Vec<Part> {
    let mut parts: Vec<Part> = vec![];
    for line in text.lines() {
        let (name, value) = line.split_once(' ').expect("a name and a value");
        if kinds.contains(&name) {
            parts.push(Part(vec![]));
        }
        parts.last_mut().expect("a part").0.push((name, value));
    }
    parts.retain(|part| part.0[0].0 == kind);
    assert!(!parts.is_empty(), "{kind}");
    parts
}
