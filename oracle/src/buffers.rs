//! Buffers that are records, and buffers that are not or may not be: of a wrong length, or damaged in a byte or in a table.

use crate::encoder::{encode, number_at, Counts, Raw, RECORD};
use crate::generate::{graph, Random};
use crate::graph::{Graph, KINDS};

/// A buffer: mostly a record, else a damaged one or one of a wrong length.
pub fn buffer(random: &mut Random) -> Vec<u8> {
    let graph = graph(random);
    match random.below(16) {
        0 => of_wrong_length(random, encode(&graph)),
        1..=3 => damaged_byte(random, &encode(&graph)),
        4..=5 => damaged_table(random, &graph),
        _ => encode(&graph),
    }
}

/// A record cut short or made longer.
pub fn of_wrong_length(random: &mut Random, mut record: Vec<u8>) -> Vec<u8> {
    let short = random.below(RECORD);
    record.resize(*random.pick(&[0, 1, 8, RECORD - 1, RECORD + 1, 2 * RECORD, short]), 0);
    record
}

/// A record with one byte changed, mostly in its contents and names.
pub fn damaged_byte(random: &mut Random, record: &[u8]) -> Vec<u8> {
    let mut damaged = record.to_vec();
    let end = content_end(record);
    let place = match random.below(8) {
        0 => random.below(8),
        1 => random.below(RECORD),
        2 => (end + random.below(3)).min(RECORD - 1),
        3 => RECORD - 1,
        _ => random.below(end.max(1)),
    };
    damaged[place] = match random.below(4) {
        0 => damaged[place].wrapping_add(1),
        1 => damaged[place].wrapping_sub(1),
        2 => damaged[place] ^ (1 << random.below(8)),
        _ => random.next() as u8,
    };
    damaged
}

/// Where the contents and names of a record end.
pub fn content_end(record: &[u8]) -> usize {
    let counts = Counts::of(record);
    let length = |place: usize| number_at(record, counts.entry(place) + 2);
    counts.bodies() + (0..counts.names).map(length).sum::<usize>()
}

/// A buffer whose tables break, or may break, one rule of the layout.
pub fn damaged_table(random: &mut Random, graph: &Graph) -> Vec<u8> {
    let mut raw = Raw::of(graph);
    let kind = *random.pick(&KINDS);
    let pairs = raw.pairs(kind).len();
    let names = raw.names.len();
    match random.below(8) {
        0 if pairs > 1 => raw.pairs_mut(kind).swap(random.below(pairs - 1), pairs - 1),
        1 if pairs > 0 => {
            let place = random.below(pairs);
            let pair = raw.pairs(kind)[place];
            raw.pairs_mut(kind).insert(place, pair);
        }
        2 if pairs > 0 => drop(raw.pairs_mut(kind).remove(random.below(pairs))),
        3 => raw.names.push(b"\xff\xff\xff\xff\xffunused".to_vec()),
        4 if names > 1 => raw.names[names - 1] = raw.names[names - 2].clone(),
        5 if names > 1 => raw.names.swap(names - 2, names - 1),
        6 if pairs > 0 => raw.pairs_mut(kind)[pairs - 1].1 = names + random.below(2),
        _ => raw.own = random.below(names + 3),
    }
    raw.write()
}

/// Calls a function on every small damage of a record: each byte of its contents, and some after them, changed to each of a few values.
pub fn each_damage(record: &[u8], mut call: impl FnMut(&[u8])) {
    let mut damaged = record.to_vec();
    let end = (content_end(record) + 3).min(RECORD);
    for place in (0..end).chain([RECORD - 257, RECORD - 256, RECORD - 2, RECORD - 1]) {
        for change in [1u8, 2, 3, 4, 16, 128, 254, 255] {
            damaged[place] = record[place].wrapping_add(change);
            call(&damaged);
        }
        damaged[place] = record[place];
    }
}

/// Small graphs whose records are damaged at every place.
pub fn small_graphs() -> Vec<Graph> {
    let pair = |from: &[u8], to: &[u8]| (from.to_vec(), to.to_vec());
    let mut chain = Graph::named(b"b");
    chain.subgraph.extend([pair(b"b", b"c"), pair(b"c", b"\xff")]);
    chain.translation.extend([pair(b"", b"b"), pair(b"c", b"")]);
    let mut prefixes = Graph::named(b"ab");
    prefixes.translation.extend([pair(b"a", b"abc"), pair(b"a", b"abcd"), pair(b"abc", b"a")]);
    let mut unnamed = Graph::default();
    unnamed.subgraph.extend([pair(b"x", b"x\x00"), pair(b"x\x00", b"x")]);
    vec![Graph::default(), Graph::named(b""), Graph::named(b"name"), chain, prefixes, unnamed]
}
