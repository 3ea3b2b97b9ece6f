//! Comparisons of the entries that make and change records with the Rust's methods: whole buffers, and numbers by the sizes of docs/FORMAT.md.

use crate::buffers;
use crate::encoder::{decode, decode_two, encode, sizes, RECORD, ZEROS};
use crate::generate::{self, Random};
use crate::graph::{wide, Graph, Name};
use crate::limits;
use crate::name::GraphName;
use crate::outputs::unwritten;
use crate::records::each_two;
use crate::report::{Hex, Input, Report};

/// A call's result and the buffer after it.
type Outcome = (u32, Vec<u8>);

/// Compares two outcomes.
fn compare(report: &mut Report, entry: &'static str, inputs: &[(&str, Input)], expected: &Outcome, got: &Outcome) {
    report.compare(entry, inputs, (expected.0, Hex(&expected.1)), (got.0, Hex(&got.1)));
}

/// The outcome of a change that gives this Rust value: its record, or a refusal by size that leaves the buffer as it is.
fn outcome(before: &[u8], after: &GraphName) -> Outcome {
    let after = Graph::of_wide(after);
    match sizes(&after) {
        0 => (0, encode(&after)),
        number => (number, before.to_vec()),
    }
}

/// Compares `new`.
pub fn new(report: &mut Report, rounds: usize) {
    let mut random = Random::new(10);
    let mut names: Vec<Name> = (0..=300).map(|length| vec![b'n'; length]).collect();
    names.extend((0..rounds).map(|_| generate::name(&mut random)));
    for name in names {
        let length = if random.once_in(8) { *random.pick(&[0, 1, RECORD - 1, RECORD + 1]) } else { RECORD };
        let mut record = unwritten(length);
        let number = graph_name::new(&name, &mut record);
        let expected = expected_new(&name, length);
        let inputs = [("name", Input::Bytes(&name)), ("buffer's length", Input::Number(length as u64))];
        compare(report, "new", &inputs, &expected, &(number, record));
    }
}

/// The outcome of `new` in a buffer of this length: a refusal by size leaves the empty record.
fn expected_new(name: &[u8], length: usize) -> Outcome {
    if length == RECORD { outcome(&ZEROS, &GraphName::new(wide(name))) } else { (15, unwritten(length)) }
}

/// The Rust's method and the library's entry for an addition.
struct Addition {
    entry: &'static str,
    method: fn(&mut GraphName, &str, &str),
    call: fn(&mut [u8], &[u8], &[u8]) -> u32,
}

/// Compares `add_subgraph`.
pub fn add_subgraph(report: &mut Report, rounds: usize) {
    let addition = Addition { entry: "add_subgraph", method: GraphName::add_subgraph, call: graph_name::add_subgraph };
    additions(report, rounds, &addition);
}

/// Compares `add_translation`.
pub fn add_translation(report: &mut Report, rounds: usize) {
    let addition = Addition { entry: "add_translation", method: GraphName::add_translation, call: graph_name::add_translation };
    additions(report, rounds, &addition);
}

/// Compares an addition: on graphs at the limits, on buffers of any kind, and in chains of additions.
fn additions(report: &mut Report, rounds: usize, addition: &Addition) {
    for graph in limits::graphs() {
        let (value, record) = (graph.to_rust(), encode(&graph));
        for name in limits::names() {
            for (from, to) in [(&name[..], &b"a"[..]), (b"b", &name), (&name, &name), (&name, b""), (b"s00007", &name)] {
                add(report, addition, &value, &record, from, to);
            }
        }
    }
    let mut random = Random::new(11);
    for _ in 0..rounds / 16 {
        let buffer = buffers::buffer(&mut random);
        let (from, to) = (generate::name(&mut random), generate::name(&mut random));
        match decode(&buffer) {
            Ok(graph) => drop(add(report, addition, &graph.to_rust(), &buffer, &from, &to)),
            Err(number) => compare_addition(report, addition, &buffer, &from, &to, &(number, buffer.clone())),
        }
    }
    for _ in 0..rounds / 16 {
        chain_of_additions(report, addition, &mut random);
    }
}

/// Compares sixteen additions in turn.
fn chain_of_additions(report: &mut Report, addition: &Addition, random: &mut Random) {
    let names = generate::names(random, 8);
    let mut value = generate::graph_over(random, &names, 4).to_rust();
    let mut record = encode(&Graph::of_wide(&value));
    for _ in 0..16 {
        let (from, to) = (random.pick(&names), random.pick(&names));
        record = add(report, addition, &value, &record, from, to);
        (addition.method)(&mut value, &wide(from), &wide(to));
    }
}

/// Compares one addition to the record of this Rust value. The result is the record expected after it.
fn add(report: &mut Report, addition: &Addition, value: &GraphName, record: &[u8], from: &[u8], to: &[u8]) -> Vec<u8> {
    let mut after = value.clone();
    (addition.method)(&mut after, &wide(from), &wide(to));
    let expected = outcome(record, &after);
    compare_addition(report, addition, record, from, to, &expected);
    expected.1
}

/// Compares one addition to a buffer with what is expected of it.
fn compare_addition(report: &mut Report, addition: &Addition, buffer: &[u8], from: &[u8], to: &[u8], expected: &Outcome) {
    let mut record = buffer.to_vec();
    let number = (addition.call)(&mut record, from, to);
    let inputs = [("record", Input::Bytes(buffer)), ("from", Input::Bytes(from)), ("to", Input::Bytes(to))];
    compare(report, addition.entry, &inputs, expected, &(number, record));
}

/// The Rust's method and the library's entry for an operation with another graph.
struct Merge {
    entry: &'static str,
    method: fn(&mut GraphName, &GraphName),
    call: fn(&mut [u8], &[u8]) -> u32,
}

/// Compares `make_subgraph_of`.
pub fn make_subgraph_of(report: &mut Report, rounds: usize) {
    let merge = Merge { entry: "make_subgraph_of", method: GraphName::make_subgraph_of, call: graph_name::make_subgraph_of };
    merges(report, rounds, &merge);
}

/// Compares `add_translation_to`.
pub fn add_translation_to(report: &mut Report, rounds: usize) {
    let merge = Merge { entry: "add_translation_to", method: GraphName::add_translation_to, call: graph_name::add_translation_to };
    merges(report, rounds, &merge);
}

/// Compares `add_relationships`.
pub fn add_relationships(report: &mut Report, rounds: usize) {
    let merge = Merge { entry: "add_relationships", method: GraphName::add_relationships, call: graph_name::add_relationships };
    merges(report, rounds, &merge);
}

/// Compares an operation with another graph: on all pairs of graphs at the limits, and on random buffers in chains of two.
fn merges(report: &mut Report, rounds: usize, operation: &Merge) {
    let mut graphs = limits::graphs();
    graphs.push(generate::full_graph(&mut Random::new(2), b'f'));
    graphs.push(generate::full_graph(&mut Random::new(3), b'g'));
    let both: Vec<(GraphName, Vec<u8>)> = graphs.iter().map(|graph| (graph.to_rust(), encode(graph))).collect();
    for (value, record) in &both {
        for (other_value, other) in &both {
            let expected = merged(operation, value, record, other_value);
            merge(report, operation, record, other, expected);
        }
    }
    each_two(rounds / 2, 12, |_, record, other| {
        let after = merge_buffers(report, operation, record, other);
        merge_buffers(report, operation, other, &after);
    });
}

/// The outcome of an operation on a record of one Rust value with the other.
fn merged(operation: &Merge, value: &GraphName, record: &[u8], other: &GraphName) -> Outcome {
    let mut after = value.clone();
    (operation.method)(&mut after, other);
    outcome(record, &after)
}

/// Compares one operation with another graph on buffers of any kind. The result is the buffer expected after it.
fn merge_buffers(report: &mut Report, operation: &Merge, buffer: &[u8], other: &[u8]) -> Vec<u8> {
    let expected = match decode_two(buffer, other) {
        Ok((first, second)) => merged(operation, &first.to_rust(), buffer, &second.to_rust()),
        Err(number) => (number, buffer.to_vec()),
    };
    merge(report, operation, buffer, other, expected)
}

/// Compares one operation with another graph with what is expected of it. The result is the buffer expected after it.
fn merge(report: &mut Report, operation: &Merge, buffer: &[u8], other: &[u8], expected: Outcome) -> Vec<u8> {
    let mut record = buffer.to_vec();
    let number = (operation.call)(&mut record, other);
    let inputs = [("record", Input::Bytes(buffer)), ("other", Input::Bytes(other))];
    compare(report, operation.entry, &inputs, &expected, &(number, record));
    expected.1
}
