//! The numbers that a header defines, by their names without the prefix.

use std::collections::BTreeMap;

/// A header's text without its comments.
pub fn code(text: &str) -> String {
    let mut parts = text.split("/*");
    let first = parts.next().expect("a split has a first part").to_string();
    parts.fold(first, |code, part| code + part.split_once("*/").expect("a comment ends").1)
}

/// The names that are defined, each with what follows it.
fn defined(code: &str) -> impl Iterator<Item = (&str, &str)> {
    let lines = code.lines().filter_map(|line| line.strip_prefix("#define "));
    lines.map(|line| {
        let name = line.strip_prefix("KRITNAMON_").expect("what the header defines has its prefix");
        name.split_at(name.find([' ', '(']).unwrap_or(name.len()))
    })
}

/// The macros that take arguments.
pub fn macros(code: &str) -> Vec<&str> {
    defined(code).filter(|define| define.1.starts_with('(')).map(|define| define.0).collect()
}

#[derive(Clone)]
pub struct Numbers(BTreeMap<String, u32>);

impl Numbers {
    /// All that is defined and takes no arguments has to be a number; but for the header's own mark, which has no value.
    pub fn of(code: &str) -> Numbers {
        let plain = defined(code).filter(|define| !define.1.starts_with('(') && !define.1.trim().is_empty());
        let number = |(name, value): (&str, &str)| {
            let digits = value.trim().strip_suffix('u').and_then(|digits| digits.parse().ok());
            (name.to_string(), digits.unwrap_or_else(|| panic!("KRITNAMON_{name} is no number:{value}")))
        };
        Numbers(plain.map(number).collect())
    }

    pub fn all(&self) -> impl Iterator<Item = (&str, u32)> {
        self.0.iter().map(|(name, &number)| (name.as_str(), number))
    }

    /// The same with another number in one place.
    pub fn with(&self, name: &str, number: u32) -> Numbers {
        let mut changed = self.clone();
        changed.0.insert(name.to_string(), number);
        changed
    }

    pub fn get(&self, name: &str) -> Result<u32, String> {
        self.0.get(name).copied().ok_or(format!("the header has no KRITNAMON_{name}"))
    }

    /// The same as a size or an offset.
    pub fn size(&self, name: &str) -> Result<usize, String> {
        self.get(name).map(|number| number as usize)
    }
}
