//! Which arms of the algebra a list reaches, by name.

use std::collections::BTreeSet;

/// The names noted so far, or nothing at all where nobody asks for them.
#[derive(Debug, Default)]
pub struct Features(Option<BTreeSet<String>>);

impl Features {
    pub fn off() -> Self {
        Features(None)
    }
    pub fn on() -> Self {
        Features(Some(BTreeSet::new()))
    }
    pub fn is_on(&self) -> bool {
        self.0.is_some()
    }
    pub fn note(&mut self, name: impl FnOnce() -> String) {
        if let Some(names) = &mut self.0 {
            names.insert(name());
        }
    }
    pub fn into_names(self) -> BTreeSet<String> {
        self.0.unwrap_or_default()
    }
}
