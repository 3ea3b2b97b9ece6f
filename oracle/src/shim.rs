//! The two types of gbwt-rs that `name.rs` uses beside its own, with the methods that it calls.

use std::collections::BTreeMap;

/// A map of tags. The three keys that `name.rs` uses are in lower case, so nothing is lowered here.
#[derive(Default)]
pub struct Tags {
    tags: BTreeMap<String, String>,
}

impl Tags {
    /// The value of a key.
    pub fn get(&self, key: &str) -> Option<&String> {
        self.tags.get(key)
    }

    /// Sets the value of a key.
    pub fn insert(&mut self, key: &str, value: &str) {
        self.tags.insert(key.to_string(), value.to_string());
    }

    /// Removes a key and gives the value that it had.
    pub fn remove(&mut self, key: &str) -> Option<String> {
        self.tags.remove(key)
    }
}

/// A graph file, as far as `name.rs` looks at one.
pub struct GBZ {
    tags: Tags,
}

impl GBZ {
    /// The tags of the file.
    pub fn tags(&self) -> &Tags {
        &self.tags
    }
}
