//! A graph name as a value: an own name or none and two sets of pairs of byte strings. It goes to the Rust's `GraphName` and back.
//!
//! The Rust's strings are valid UTF-8. A byte string goes there as the string of the characters with the numbers of its bytes. That
//! keeps equality and order and leaves ASCII as it is, so that every byte string has a counterpart, and what the Rust makes of it is
//! mapped back character by character. Texts that the Rust reads are not mapped, since its rules for them count bytes.

use crate::name::GraphName;
use std::collections::BTreeSet;

pub type Name = Vec<u8>;
pub type Pair = (Name, Name);

/// The two kinds of pairs.
#[derive(Clone, Copy, PartialEq, Eq, PartialOrd, Ord, Debug)]
pub enum Kind {
    Subgraph,
    Translation,
}

/// Both kinds, in the order of their tables and of steps.
pub const KINDS: [Kind; 2] = [Kind::Subgraph, Kind::Translation];

/// An own name or none, and the pairs of each kind.
#[derive(Clone, Default, PartialEq, Eq, Debug)]
pub struct Graph {
    pub name: Option<Name>,
    pub subgraph: BTreeSet<Pair>,
    pub translation: BTreeSet<Pair>,
}

/// The string of the characters with the numbers of these bytes.
pub fn wide(bytes: &[u8]) -> String {
    bytes.iter().map(|&byte| char::from(byte)).collect()
}

/// The bytes with the numbers of these characters: the inverse of `wide`.
pub fn narrow(text: &str) -> Vec<u8> {
    text.chars().map(|character| u8::try_from(character).expect("a character below 256")).collect()
}

impl Graph {
    /// The graph of this name with no pairs.
    pub fn named(name: &[u8]) -> Graph {
        Graph { name: Some(name.to_vec()), ..Graph::default() }
    }

    /// The pairs of a kind.
    pub fn pairs(&self, kind: Kind) -> &BTreeSet<Pair> {
        match kind {
            Kind::Subgraph => &self.subgraph,
            Kind::Translation => &self.translation,
        }
    }

    /// The pairs of a kind, to change.
    pub fn pairs_mut(&mut self, kind: Kind) -> &mut BTreeSet<Pair> {
        match kind {
            Kind::Subgraph => &mut self.subgraph,
            Kind::Translation => &mut self.translation,
        }
    }

    /// All names in use, each once, ascending.
    pub fn names(&self) -> Vec<&[u8]> {
        let ends = self.subgraph.iter().chain(&self.translation).flat_map(|(from, to)| [from, to]);
        let mut all: Vec<&[u8]> = self.name.iter().chain(ends).map(|name| name.as_slice()).collect();
        all.sort();
        all.dedup();
        all
    }

    /// The graph that a Rust value means, its strings taken as they are.
    pub fn of_plain(value: &GraphName) -> Graph {
        Graph::of(value, |text| text.as_bytes().to_vec())
    }

    /// The graph that a Rust value made by `to_rust` means.
    pub fn of_wide(value: &GraphName) -> Graph {
        Graph::of(value, narrow)
    }

    /// The graph that a Rust value means, each of its strings turned into a name.
    fn of(value: &GraphName, name: impl Fn(&str) -> Name) -> Graph {
        Graph {
            name: value.name().map(|text| name(text)),
            subgraph: value.subgraph_iter().map(|(from, to)| (name(from), name(to))).collect(),
            translation: value.translation_iter().map(|(from, to)| (name(from), name(to))).collect(),
        }
    }

    /// The Rust value for this graph.
    pub fn to_rust(&self) -> GraphName {
        let mut value = match &self.name {
            Some(name) => GraphName::new(wide(name)),
            None => GraphName::default(),
        };
        for kind in KINDS {
            for (from, to) in self.pairs(kind) {
                put_rust_pair(&mut value, kind, &wide(from), &wide(to));
            }
        }
        value
    }
}

/// Adds a pair to a Rust value. Its plain additions pass over empty names, so those pairs come in by way of a graph of that name.
fn put_rust_pair(value: &mut GraphName, kind: Kind, from: &str, to: &str) {
    let plain = !from.is_empty() && !to.is_empty();
    match (kind, plain) {
        (Kind::Subgraph, true) => value.add_subgraph(from, to),
        (Kind::Translation, true) => value.add_translation(from, to),
        (Kind::Subgraph, false) => value.add_relationships(&child(from, |graph| graph.make_subgraph_of(&parent(to)))),
        (Kind::Translation, false) => value.add_relationships(&child(from, |graph| graph.add_translation_to(&parent(to)))),
    }
}

/// A Rust graph of this name, changed once.
fn child(name: &str, change: impl Fn(&mut GraphName)) -> GraphName {
    let mut graph = parent(name);
    change(&mut graph);
    graph
}

/// A Rust graph of this name.
fn parent(name: &str) -> GraphName {
    GraphName::new(name.to_string())
}
