//! The layout of a record, written from docs/FORMAT.md alone: the sizes of a graph, its encoding, and the test and decoding of a buffer.

use crate::graph::{Graph, Kind, Name, Pair, KINDS};
use std::collections::BTreeSet;

pub const RECORD: usize = 32768;
pub const NAMES: usize = 512;
pub const PAIRS: usize = 1024;
pub const LONGEST: usize = 256;
pub const BODIES: usize = 22520;

/// The record of the unnamed graph with no pairs.
pub static ZEROS: [u8; RECORD] = [0; RECORD];

/// The refusal that the sizes of a graph give: the first of 11 to 14, or 0.
pub fn sizes(graph: &Graph) -> u32 {
    let names = graph.names();
    if names.iter().any(|name| name.len() > LONGEST) {
        11
    } else if names.len() > NAMES {
        12
    } else if KINDS.iter().any(|&kind| graph.pairs(kind).len() > PAIRS) {
        13
    } else if names.iter().map(|name| name.len()).sum::<usize>() > BODIES {
        14
    } else {
        0
    }
}

/// The tables of a buffer before they are written: they need not keep the rules of the layout.
pub struct Raw {
    pub names: Vec<Name>,
    pub own: usize,
    pub subgraph: Vec<(usize, usize)>,
    pub translation: Vec<(usize, usize)>,
}

impl Raw {
    /// The tables of a graph.
    pub fn of(graph: &Graph) -> Raw {
        let names = graph.names();
        let place = |name: &Name| names.binary_search(&name.as_slice()).expect("a name in use");
        let places = |kind| graph.pairs(kind).iter().map(|(from, to)| (place(from), place(to))).collect();
        Raw {
            own: graph.name.as_ref().map_or(0, |name| place(name) + 1),
            subgraph: places(Kind::Subgraph),
            translation: places(Kind::Translation),
            names: names.iter().map(|name| name.to_vec()).collect(),
        }
    }

    /// The pairs of a kind.
    pub fn pairs(&self, kind: Kind) -> &Vec<(usize, usize)> {
        if kind == Kind::Subgraph { &self.subgraph } else { &self.translation }
    }

    /// The pairs of a kind, to change.
    pub fn pairs_mut(&mut self, kind: Kind) -> &mut Vec<(usize, usize)> {
        if kind == Kind::Subgraph { &mut self.subgraph } else { &mut self.translation }
    }

    /// The buffer of these tables.
    pub fn write(&self) -> Vec<u8> {
        let mut record = Vec::with_capacity(RECORD);
        for count in [self.names.len(), self.own, self.subgraph.len(), self.translation.len()] {
            put(&mut record, count);
        }
        let mut start = 0;
        for name in &self.names {
            put(&mut record, start);
            put(&mut record, name.len());
            start += name.len();
        }
        for &(from, to) in self.subgraph.iter().chain(&self.translation) {
            put(&mut record, from);
            put(&mut record, to);
        }
        self.names.iter().for_each(|name| record.extend_from_slice(name));
        assert!(record.len() <= RECORD, "tables that do not fit");
        record.resize(RECORD, 0);
        record
    }
}

/// The record of a graph within the sizes; for one beyond them, the buffer that its tables and names make.
pub fn encode(graph: &Graph) -> Vec<u8> {
    Raw::of(graph).write()
}

/// Adds a number of two bytes, low byte first.
pub fn put(bytes: &mut Vec<u8>, number: usize) {
    bytes.extend_from_slice(&u16::try_from(number).expect("a number of two bytes").to_le_bytes());
}

/// The number of two bytes at a place.
pub fn number_at(bytes: &[u8], place: usize) -> usize {
    usize::from(u16::from_le_bytes([bytes[place], bytes[place + 1]]))
}

/// The four counts at the start of a record.
pub struct Counts {
    pub names: usize,
    pub own: usize,
    pub subgraph: usize,
    pub translation: usize,
}

impl Counts {
    /// The counts of a buffer of the right length.
    pub fn of(record: &[u8]) -> Counts {
        Counts {
            names: number_at(record, 0),
            own: number_at(record, 2),
            subgraph: number_at(record, 4),
            translation: number_at(record, 6),
        }
    }

    /// Whether each count is within its limit.
    fn fit(&self) -> bool {
        self.names <= NAMES && self.own <= self.names && self.subgraph <= PAIRS && self.translation <= PAIRS
    }

    /// Where the entry of a name stands.
    pub fn entry(&self, place: usize) -> usize {
        8 + 4 * place
    }

    /// Where a pair of a kind stands.
    pub fn pair(&self, kind: Kind, place: usize) -> usize {
        let before = if kind == Kind::Subgraph { 0 } else { self.subgraph };
        self.entry(self.names) + 4 * (before + place)
    }

    /// Where the first body stands.
    pub fn bodies(&self) -> usize {
        self.pair(Kind::Translation, self.translation)
    }

    /// How many pairs of a kind there are.
    pub fn pairs(&self, kind: Kind) -> usize {
        if kind == Kind::Subgraph { self.subgraph } else { self.translation }
    }
}

/// The graph of a buffer, or the refusal that it gives: 15 or 16.
pub fn decode(buffer: &[u8]) -> Result<Graph, u32> {
    if buffer.len() == RECORD { shown(buffer).ok_or(16) } else { Err(15) }
}

/// The graphs of two buffers, or the refusal that they give: 15 of either, then 16 of either.
pub fn decode_two(record: &[u8], other: &[u8]) -> Result<(Graph, Graph), u32> {
    match (decode(record), decode(other)) {
        (Ok(first), Ok(second)) => Ok((first, second)),
        (Err(15), _) | (_, Err(15)) => Err(15),
        _ => Err(16),
    }
}

/// The graph that a buffer of the right length shows, if it keeps the layout.
fn shown(record: &[u8]) -> Option<Graph> {
    let counts = Counts::of(record);
    if !counts.fit() {
        return None;
    }
    let names = bodies(record, &counts)?;
    let subgraph = pairs(record, &counts, Kind::Subgraph)?;
    let translation = pairs(record, &counts, Kind::Translation)?;
    let own = counts.own.checked_sub(1);
    let used: BTreeSet<usize> =
        subgraph.iter().chain(&translation).flat_map(|&(from, to)| [from, to]).chain(own).collect();
    if used.len() != names.len() {
        return None;
    }
    let named = |list: Vec<(usize, usize)>| -> BTreeSet<Pair> {
        list.into_iter().map(|(from, to)| (names[from].clone(), names[to].clone())).collect()
    };
    Some(Graph { name: own.map(|place| names[place].clone()), subgraph: named(subgraph), translation: named(translation) })
}

/// The bodies, if they ascend without gaps within the sizes and all later bytes are zero.
fn bodies(record: &[u8], counts: &Counts) -> Option<Vec<Name>> {
    let first = counts.bodies();
    let mut names: Vec<Name> = Vec::new();
    let mut end = 0;
    for place in 0..counts.names {
        let start = number_at(record, counts.entry(place));
        let length = number_at(record, counts.entry(place) + 2);
        if start != end || length > LONGEST || start + length > BODIES {
            return None;
        }
        end = start + length;
        let name = record[first + start..first + end].to_vec();
        if names.last().is_some_and(|last| *last >= name) {
            return None;
        }
        names.push(name);
    }
    (record[first + end..] == ZEROS[first + end..]).then_some(names)
}

/// The places in the pairs of a kind, if they are places of names and the pairs ascend, none twice.
fn pairs(record: &[u8], counts: &Counts, kind: Kind) -> Option<Vec<(usize, usize)>> {
    let list: Vec<(usize, usize)> = (0..counts.pairs(kind))
        .map(|place| counts.pair(kind, place))
        .map(|at| (number_at(record, at), number_at(record, at + 2)))
        .collect();
    let inside = list.iter().all(|&(from, to)| from < counts.names && to < counts.names);
    (inside && list.windows(2).all(|two| two[0] < two[1])).then_some(list)
}
