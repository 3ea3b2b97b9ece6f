//! Names and graphs, all from a generator of numbers that gives the same sequence on every run.

use crate::encoder::{BODIES, LONGEST, NAMES, PAIRS};
use crate::graph::{Graph, Kind, Name, KINDS};

/// A generator of numbers (SplitMix64).
pub struct Random {
    state: u64,
}

impl Random {
    /// The generator of this seed.
    pub fn new(seed: u64) -> Random {
        Random { state: seed }
    }

    /// The next number.
    pub fn next(&mut self) -> u64 {
        self.state = self.state.wrapping_add(0x9E37_79B9_7F4A_7C15);
        let mixed = (self.state ^ (self.state >> 30)).wrapping_mul(0xBF58_476D_1CE4_E5B9);
        let mixed = (mixed ^ (mixed >> 27)).wrapping_mul(0x94D0_49BB_1331_11EB);
        mixed ^ (mixed >> 31)
    }

    /// A number below a bound that is not 0.
    pub fn below(&mut self, bound: usize) -> usize {
        (self.next() % bound as u64) as usize
    }

    /// Yes once in so many times.
    pub fn once_in(&mut self, times: usize) -> bool {
        self.below(times) == 0
    }

    /// One of a list that is not empty.
    pub fn pick<'a, T>(&mut self, list: &'a [T]) -> &'a T {
        &list[self.below(list.len())]
    }

    /// Bytes of this length from an alphabet.
    pub fn bytes(&mut self, length: usize, alphabet: &[u8]) -> Vec<u8> {
        (0..length).map(|_| *self.pick(alphabet)).collect()
    }
}

/// Bytes that separate, end, sort or sign in an unusual way.
const UNUSUAL: [u8; 16] = [0, 1, 9, 10, 13, 32, 44, 58, 59, 64, 97, 127, 128, 169, 195, 255];

/// A name: empty, a few letters, unusual bytes, 64 digits, or of the greatest length.
pub fn name(random: &mut Random) -> Name {
    let length = random.below(4);
    match random.below(16) {
        0 => Vec::new(),
        1..=9 => random.bytes(1 + length, b"ab"),
        10..=12 => random.bytes(1 + length, &UNUSUAL),
        13 => random.bytes(64, b"0123456789abcdef"),
        14 => near(random, LONGEST, b'x'),
        _ => near(random, 16 + 16 * length, b'p'),
    }
}

/// A name of about this length, at most it, that shares a long beginning with others.
fn near(random: &mut Random, length: usize, byte: u8) -> Name {
    let mut name = vec![byte; length - random.below(2)];
    if random.once_in(2) {
        let place = random.below(name.len());
        name[place] = *random.pick(&UNUSUAL);
    }
    name
}

/// Names for a graph: short ones and others, some of them equal.
pub fn names(random: &mut Random, count: usize) -> Vec<Name> {
    (0..count).map(|_| name(random)).collect()
}

/// A graph over these names with up to so many pairs of each kind.
pub fn graph_over(random: &mut Random, names: &[Name], most: usize) -> Graph {
    let mut graph = Graph::default();
    if !random.once_in(5) {
        graph.name = Some(random.pick(names).clone());
    }
    for kind in KINDS {
        for _ in 0..random.below(most + 1) {
            let pair = (random.pick(names).clone(), random.pick(names).clone());
            graph.pairs_mut(kind).insert(pair);
        }
    }
    graph
}

/// A graph within the sizes: mostly small, sometimes of medium size.
pub fn graph(random: &mut Random) -> Graph {
    let (count, most) = if random.once_in(16) { (60, 120) } else { (1 + random.below(7), 8) };
    let names = names(random, count);
    graph_over(random, &names, most)
}

/// Two graphs over the same names, so that paths lead from one to the other.
pub fn two_graphs(random: &mut Random) -> (Graph, Graph) {
    let (count, most) = match random.below(16) {
        0 => (40, 60),
        1 => (40, 120),
        2 => (4, 16),
        _ => (2 + random.below(7), 8),
    };
    let names = names(random, count);
    (graph_over(random, &names, most), graph_over(random, &names, most))
}

/// A name of this length that begins with a mark and a number.
pub fn numbered(mark: u8, number: usize, length: usize) -> Name {
    let mut name = vec![mark];
    name.extend_from_slice(format!("{number:05}").as_bytes());
    name.resize(length, b'.');
    name
}

/// So many names of this mark that together have 22,520 bytes.
pub fn filling_names(mark: u8, count: usize) -> Vec<Name> {
    let length = |number: usize| BODIES / count + usize::from(number < BODIES % count);
    (0..count).map(|number| numbered(mark, number, length(number))).collect()
}

/// Names of this mark that fill a record: 512 of them with 22,520 bytes.
pub fn full_names(mark: u8) -> Vec<Name> {
    filling_names(mark, NAMES)
}

/// A graph that fills a record: each name of a full list leads to the next, and random pairs make 1,024 of each kind.
pub fn full_graph(random: &mut Random, mark: u8) -> Graph {
    let names = full_names(mark);
    let mut graph = Graph::named(&names[0]);
    for kind in KINDS {
        for place in 0..NAMES {
            graph.pairs_mut(kind).insert((names[place].clone(), names[(place + 1) % NAMES].clone()));
        }
        while graph.pairs(kind).len() < PAIRS {
            let pair = (random.pick(&names).clone(), random.pick(&names).clone());
            graph.pairs_mut(kind).insert(pair);
        }
    }
    graph
}

/// A path over names of this mark: each leads to the next by a pair of the kind that the function gives.
pub fn chain(names: &[Name], kind: impl Fn(usize) -> Kind) -> Graph {
    let mut graph = Graph::default();
    for (place, two) in names.windows(2).enumerate() {
        graph.pairs_mut(kind(place)).insert((two[0].clone(), two[1].clone()));
    }
    graph
}
