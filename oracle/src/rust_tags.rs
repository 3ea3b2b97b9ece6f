//! The Rust's map of tags, `Tags` of src/support.rs. That file needs other crates; `oracle/cut_tags` cuts the map out of it, as it stands.

include!("../../target/oracle/tags.rs");

impl Tags {
    /// All tags.
    pub fn all(&self) -> &BTreeMap<String, String> {
        &self.tags
    }
}
