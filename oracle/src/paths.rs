//! Comparisons of the two questions: the answers with the Rust's, and the path's bytes with those of the search in `model_paths`.

use crate::encoder::{decode_two, encode, BODIES, LONGEST, NAMES, PAIRS};
use crate::generate::{chain, filling_names, full_graph, full_names, numbered, Random};
use crate::graph::{Graph, Kind, Name, KINDS};
use crate::model_paths::{best_path, path_bytes};
use crate::name::GraphName;
use crate::outputs::{compare_texts, each_room, filled, refused_outcome, unwritten, UNWRITTEN};
use crate::records::each_two;
use crate::report::{Input, Report};

/// The Rust's method and the library's entry of a question.
struct Question {
    entry: &'static str,
    full: bool,
    method: fn(&GraphName, &GraphName) -> bool,
    call: fn(&[u8], &[u8], &mut [u8], &mut u64) -> u32,
}

/// Compares `is_subgraph_of`.
pub fn is_subgraph_of(report: &mut Report, rounds: usize) {
    let question = Question {
        entry: "is_subgraph_of", full: false, method: GraphName::is_subgraph_of, call: graph_name::is_subgraph_of,
    };
    questions(report, rounds, &question);
}

/// Compares `translates_to`.
pub fn translates_to(report: &mut Report, rounds: usize) {
    let question =
        Question { entry: "translates_to", full: true, method: GraphName::translates_to, call: graph_name::translates_to };
    questions(report, rounds, &question);
}

/// Compares a question on large graphs and on random buffers, both ways.
fn questions(report: &mut Report, rounds: usize, question: &Question) {
    for (first, second) in large_graphs() {
        let (record, other) = (encode(&first), encode(&second));
        ask(report, question, &record, &other);
        ask(report, question, &other, &record);
    }
    each_two(rounds / 4, 40, |_, record, other| {
        ask(report, question, record, other);
        ask(report, question, other, record);
    });
}

/// Two graphs that continue each other: a path over these names, its first part in one and the rest in the other.
pub fn long_path(names: &[Name], cut: usize, kind: impl Fn(usize) -> Kind + Copy) -> (Graph, Graph) {
    let mut first = chain(&names[..=cut], kind);
    let mut second = chain(&names[cut..], |place| kind(cut + place));
    first.name = names.first().cloned();
    second.name = names.last().cloned();
    (first, second)
}

/// The names of the longest paths: 511 that fill one record, one that both records have, and 511 that fill the other. With the shared one
/// empty, the bytes of the path are the most that there can be.
pub fn longest_path_names() -> [Vec<Name>; 2] {
    let with_empty = [filling_names(b'p', NAMES - 1), vec![Vec::new()], filling_names(b'q', NAMES - 1)].concat();
    let with_another = [full_names(b'p'), full_names(b'q')[1..].to_vec()].concat();
    [with_empty, with_another]
}

/// A graph of 32 names with all 1,024 pairs of each kind.
fn dense(mark: u8, own: usize) -> Graph {
    let names: Vec<Name> = (0..32).map(|number| numbered(mark, number, 6)).collect();
    let mut graph = Graph::named(&names[own]);
    for kind in KINDS {
        graph.pairs_mut(kind).extend(names.iter().flat_map(|from| names.iter().map(|to| (from.clone(), to.clone()))));
    }
    assert!(graph.subgraph.len() == PAIRS);
    graph
}

/// Two graphs with many shortest paths: layers of names, each leading to all of the next by one kind or the other.
fn layers(random: &mut Random, width: usize, depth: usize) -> (Graph, Graph) {
    let name = |layer: usize, place: usize| numbered(b'a' + (place * 7 % width) as u8, layer, 6);
    let mut graphs = (Graph::named(b"start"), Graph::named(b"target"));
    for layer in 0..depth {
        for place in 0..width * width {
            let (from, to) = (place / width, place % width);
            let pair = if layer == 0 {
                (b"start".to_vec(), name(0, to))
            } else if layer + 1 == depth {
                (name(layer - 1, from), b"target".to_vec())
            } else {
                (name(layer - 1, from), name(layer, to))
            };
            let graph = if random.once_in(2) { &mut graphs.0 } else { &mut graphs.1 };
            graph.pairs_mut(*random.pick(&KINDS)).insert(pair);
        }
    }
    graphs
}

/// Pairs of graphs with long paths, many pairs or many shortest paths.
pub fn large_graphs() -> Vec<(Graph, Graph)> {
    let mut random = Random::new(41);
    let mut list = Vec::new();
    for names in longest_path_names() {
        list.push(long_path(&names, NAMES - 1, |_| Kind::Subgraph));
        list.push(long_path(&names, NAMES - 1, |place| KINDS[place % 2]));
    }
    let long: Vec<Name> = (0..BODIES / LONGEST).map(|number| numbered(b'l', number, LONGEST)).collect();
    list.push(long_path(&long, 40, |place| KINDS[usize::from(place == 70)]));
    let full = full_graph(&mut random, b'f');
    let other = full_names(b'f')[300].clone();
    list.push((full.clone(), full_graph(&mut random, b'g')));
    list.push((full.clone(), Graph { name: Some(other.clone()), ..full_graph(&mut random, b'f') }));
    list.push((full, Graph::named(&other)));
    list.push((dense(b'd', 0), dense(b'd', 31)));
    list.push((dense(b'd', 5), dense(b'e', 5)));
    for (width, depth) in [(2, 12), (3, 9), (6, 12), (8, 5), (9, 9)] {
        list.push(layers(&mut random, width, depth));
    }
    list
}

/// Asks with outputs of several rooms: none, one byte short of the path's bytes, just enough and more.
fn ask(report: &mut Report, question: &Question, record: &[u8], other: &[u8]) {
    let path = decode_two(record, other).map(|(first, second)| expected_path(question, &first, &second));
    let length = path.as_ref().map_or(16, |bytes| bytes.as_ref().map_or(16, |bytes| bytes.len()));
    each_room(length, |room| {
        let expected = match &path {
            Err(number) => refused_outcome(*number, room),
            Ok(None) => (0, unwritten(room), 0),
            Ok(Some(bytes)) if bytes.len() > room => refused_outcome(17, room),
            Ok(Some(bytes)) => (0, filled(bytes, room), 1),
        };
        let mut out = unwritten(room);
        let mut answer = UNWRITTEN;
        let number = (question.call)(record, other, &mut out, &mut answer);
        let inputs = [("record", Input::Bytes(record)), ("other", Input::Bytes(other)), ("room", Input::Number(room as u64))];
        compare_texts(report, question.entry, &inputs, &expected, &(number, out, answer));
    });
}

/// The path's bytes if the Rust says yes, none if it says no. A yes without a path, or a path without a yes, is an error of the models.
fn expected_path(question: &Question, first: &Graph, second: &Graph) -> Option<Vec<u8>> {
    let path = best_path(first, second, question.full);
    let yes = (question.method)(&first.to_rust(), &second.to_rust());
    assert_eq!(path.is_some(), yes, "the Rust and the search disagree on {first:?} and {second:?}");
    path.map(|path| path_bytes(&path))
}
