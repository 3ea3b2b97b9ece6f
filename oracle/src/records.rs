//! Comparisons of the entries that look at records: counts, names and pairs one by one, and whether two graphs are the same.

use crate::buffers;
use crate::encoder::{decode, decode_two, encode, Counts, RECORD};
use crate::generate::{self, Random};
use crate::graph::{Graph, Kind, Name};
use crate::limits;
use crate::outputs::UNWRITTEN;
use crate::report::{Input, Report};

/// A result and the numbers written.
type Answer<const COUNT: usize> = (u32, [u64; COUNT]);

/// The answer of a call on a buffer: that of its graph, or a refusal that writes nothing.
fn answer<const COUNT: usize>(buffer: &[u8], of_graph: impl Fn(&Graph) -> [u64; COUNT]) -> Answer<COUNT> {
    match decode(buffer) {
        Ok(graph) => (0, of_graph(&graph)),
        Err(number) => (number, [UNWRITTEN; COUNT]),
    }
}

/// Calls a function on fixed buffers: wrong lengths, small records as they are and damaged, graphs at the limits and one past them, and a
/// full record damaged.
fn each_fixed_buffer(mut call: impl FnMut(&[u8])) {
    for length in [0, 1, RECORD - 1, RECORD + 1] {
        call(&vec![0; length]);
    }
    for graph in buffers::small_graphs() {
        let record = encode(&graph);
        call(&record);
        buffers::each_damage(&record, &mut call);
    }
    for graph in limits::graphs().iter().chain(&limits::graphs_beyond()) {
        call(&encode(graph));
    }
    let mut full = encode(&generate::full_graph(&mut Random::new(1), b'f'));
    for place in (0..RECORD).step_by(911).chain([8, 9, 10, 11, 2056, 2057, 10247, 10248, RECORD - 1]) {
        full[place] = full[place].wrapping_add(1);
        call(&full);
        full[place] = full[place].wrapping_sub(1);
    }
}

/// Calls a comparison on the fixed buffers and on so many random ones.
pub fn each_buffer(rounds: usize, seed: u64, mut call: impl FnMut(&mut Random, &[u8])) {
    let mut random = Random::new(seed);
    each_fixed_buffer(|buffer| call(&mut random, buffer));
    for _ in 0..rounds {
        let buffer = buffers::buffer(&mut random);
        call(&mut random, &buffer);
    }
}

/// Where a name stands in a record, and its length.
fn place_of(record: &[u8], graph: &Graph, name: &Name) -> [u64; 2] {
    let before: usize = graph.names().iter().take_while(|other| **other != name.as_slice()).map(|other| other.len()).sum();
    [(Counts::of(record).bodies() + before) as u64, name.len() as u64]
}

/// Compares `counts`.
pub fn counts(report: &mut Report, rounds: usize) {
    each_buffer(rounds, 2, |_, buffer| {
        let of_graph = |graph: &Graph| [graph.names().len(), graph.subgraph.len(), graph.translation.len()].map(|count| count as u64);
        let [mut names, mut subgraph, mut translation] = [UNWRITTEN; 3];
        let number = graph_name::counts(buffer, &mut names, &mut subgraph, &mut translation);
        let got = (number, [names, subgraph, translation]);
        report.compare("counts", &[("record", Input::Bytes(buffer))], answer(buffer, of_graph), got);
    });
}

/// Compares `name`.
pub fn name(report: &mut Report, rounds: usize) {
    each_buffer(rounds, 3, |_, buffer| {
        let of_graph = |graph: &Graph| match &graph.name {
            Some(name) => one_name(buffer, graph, name),
            None => [0; 3],
        };
        let [mut present, mut start, mut length] = [UNWRITTEN; 3];
        let number = graph_name::name(buffer, &mut present, &mut start, &mut length);
        let got = (number, [present, start, length]);
        report.compare("name", &[("record", Input::Bytes(buffer))], answer(buffer, of_graph), got);
    });
}

/// A present name: 1, its place and its length.
fn one_name(record: &[u8], graph: &Graph, name: &Name) -> [u64; 3] {
    let [start, length] = place_of(record, graph, name);
    [1, start, length]
}

/// Places to ask for: one within a count, those about its end, and ones far past it.
pub fn places(random: &mut Random, count: usize) -> [u64; 4] {
    let far = *random.pick(&[512, 1024, 65535, 65536, 1 << 32, 1 << 63, u64::MAX - 1, u64::MAX]);
    [random.below(count + 1) as u64, (count as u64).saturating_sub(1), count as u64, far]
}

/// Compares `name_at`.
pub fn name_at(report: &mut Report, rounds: usize) {
    each_buffer(rounds / 4, 4, |random, buffer| {
        let count = decode(buffer).map_or(0, |graph| graph.names().len());
        for place in places(random, count) {
            let of_graph = |graph: &Graph| match nth(graph.names().into_iter(), place) {
                Some(name) => one_name(buffer, graph, &name.to_vec()),
                None => [0; 3],
            };
            let [mut present, mut start, mut length] = [UNWRITTEN; 3];
            let number = graph_name::name_at(buffer, place, &mut present, &mut start, &mut length);
            let got = (number, [present, start, length]);
            let inputs = [("record", Input::Bytes(buffer)), ("place", Input::Number(place))];
            report.compare("name_at", &inputs, answer(buffer, of_graph), got);
        }
    });
}

/// The item at a place, if there is one.
fn nth<T>(mut list: impl Iterator<Item = T>, place: u64) -> Option<T> {
    list.nth(usize::try_from(place).expect("a place of 64 bits"))
}

/// Compares `subgraph_at`.
pub fn subgraph_at(report: &mut Report, rounds: usize) {
    pair_at(report, rounds, "subgraph_at", Kind::Subgraph, graph_name::subgraph_at);
}

/// Compares `translation_at`.
pub fn translation_at(report: &mut Report, rounds: usize) {
    pair_at(report, rounds, "translation_at", Kind::Translation, graph_name::translation_at);
}

/// An entry that gives a pair.
type PairAt = fn(&[u8], u64, &mut u64, &mut u64, &mut u64, &mut u64, &mut u64) -> u32;

/// Compares an entry that gives the pairs of a kind.
fn pair_at(report: &mut Report, rounds: usize, entry: &'static str, kind: Kind, call: PairAt) {
    each_buffer(rounds / 4, 5, |random, buffer| {
        let count = decode(buffer).map_or(0, |graph| graph.pairs(kind).len());
        for place in places(random, count) {
            let of_graph = |graph: &Graph| match nth(graph.pairs(kind).iter(), place) {
                Some((from, to)) => {
                    let [from_start, from_length] = place_of(buffer, graph, from);
                    let [to_start, to_length] = place_of(buffer, graph, to);
                    [1, from_start, from_length, to_start, to_length]
                }
                None => [0; 5],
            };
            let mut got = [UNWRITTEN; 5];
            let [present, from_start, from_length, to_start, to_length] = &mut got;
            let number = call(buffer, place, present, from_start, from_length, to_start, to_length);
            let inputs = [("record", Input::Bytes(buffer)), ("place", Input::Number(place))];
            report.compare(entry, &inputs, answer(buffer, of_graph), (number, got));
        }
    });
}

/// Calls a comparison on pairs of buffers: two records over the same names, and each with a buffer of any kind in its place.
pub fn each_two(rounds: usize, seed: u64, mut call: impl FnMut(&mut Random, &[u8], &[u8])) {
    let mut random = Random::new(seed);
    for _ in 0..rounds {
        let (first, second) = generate::two_graphs(&mut random);
        let (mut record, mut other) = (encode(&first), encode(&second));
        match random.below(12) {
            0 => record = buffers::buffer(&mut random),
            1 => other = buffers::buffer(&mut random),
            2 => (record, other) = (buffers::buffer(&mut random), buffers::buffer(&mut random)),
            _ => {}
        }
        call(&mut random, &record, &other);
    }
}

/// Compares `is_same` with the Rust's.
pub fn is_same(report: &mut Report, rounds: usize) {
    each_two(rounds, 6, |_, record, other| {
        let expected = match decode_two(record, other) {
            Ok((first, second)) => (0, [u64::from(first.to_rust().is_same(&second.to_rust()))]),
            Err(number) => (number, [UNWRITTEN]),
        };
        let mut answer = UNWRITTEN;
        let number = graph_name::is_same(record, other, &mut answer);
        let inputs = [("record", Input::Bytes(record)), ("other", Input::Bytes(other))];
        report.compare("is_same", &inputs, expected, (number, [answer]));
    });
}
