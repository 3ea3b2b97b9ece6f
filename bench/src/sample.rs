//! The graphs that are measured: 5, 10 and 100 relations over names of 64 digits, and the largest record, with all that the calls need
//! made beforehand.

use crate::encoder::encode;
use crate::generate::{full_graph, Random};
use crate::graph::{wide, Graph, Name, KINDS};
use crate::model_paths::best_path;
use crate::name::GraphName;

/// A graph as the Rust's value and as a record.
pub struct Both {
    pub value: GraphName,
    pub record: Vec<u8>,
}

impl Both {
    /// Both forms of a graph.
    fn of(graph: &Graph) -> Both {
        Both { value: graph.to_rust(), record: encode(graph) }
    }
}

/// The graph that a question asks about, without relations and with those of the sample.
pub struct Target {
    pub bare: Both,
    pub full: Both,
}

/// The three graphs that a question asks about.
pub struct Targets {
    pub near: Target,
    pub far: Target,
    pub no: Target,
}

/// All that is measured of one graph.
pub struct Sample {
    pub title: &'static str,
    pub whole: Both,
    pub halves: [Both; 2],
    pub gfa: (Vec<u8>, Vec<String>),
    pub gaf: (Vec<u8>, Vec<String>),
    pub added: (String, String),
    pub subgraph: Targets,
    pub full: Targets,
}

/// The samples, from the smallest.
pub fn samples() -> Vec<Sample> {
    let mut random = Random::new(1);
    let mut list: Vec<Sample> = [("5", 5), ("10", 10), ("100", 100)]
        .into_iter()
        .map(|(title, relations)| sample(title, &chain_graph(&mut random, relations)))
        .collect();
    list.push(sample("largest", &full_graph(&mut random, b'f')));
    list
}

/// A path of so many relations from the graph's own name over names of 64 digits: subgraph pairs first, then translation pairs.
fn chain_graph(random: &mut Random, relations: usize) -> Graph {
    let names: Vec<Name> = (0..=relations).map(|_| random.bytes(64, b"0123456789abcdef")).collect();
    let mut graph = Graph::named(&names[0]);
    for (place, two) in names.windows(2).enumerate() {
        graph.pairs_mut(KINDS[usize::from(2 * place >= relations)]).insert((two[0].clone(), two[1].clone()));
    }
    graph
}

/// The sample of a graph.
fn sample(title: &'static str, graph: &Graph) -> Sample {
    let whole = Both::of(graph);
    let (gfa, gaf) = (whole.value.to_gfa_header_lines(), whole.value.to_gaf_header_lines());
    Sample {
        title,
        halves: [0, 1].map(|part| Both::of(&half(graph, part))),
        gfa: (joined(&gfa), gfa),
        gaf: (joined(&gaf), gaf),
        added: added(&half(graph, 0)),
        subgraph: targets(graph, false),
        full: targets(graph, true),
        whole,
    }
}

/// A pair of names in use that is not among the subgraph pairs.
fn added(graph: &Graph) -> (String, String) {
    let names = graph.names();
    let mut pairs = names.iter().flat_map(|from| names.iter().map(|to| (from.to_vec(), to.to_vec())));
    let (from, to) = pairs.find(|pair| !graph.subgraph.contains(pair)).expect("a new pair");
    (wide(&from), wide(&to))
}

/// The text of header lines, each ended by byte 10.
fn joined(lines: &[String]) -> Vec<u8> {
    lines.iter().flat_map(|line| format!("{line}\n").into_bytes()).collect()
}

/// The graph with every second pair of each kind.
fn half(graph: &Graph, part: usize) -> Graph {
    let mut result = Graph { name: graph.name.clone(), ..Graph::default() };
    for kind in KINDS {
        result.pairs_mut(kind).extend(graph.pairs(kind).iter().skip(part).step_by(2).cloned());
    }
    result
}

/// The graph with another own name.
fn renamed(graph: &Graph, name: &[u8]) -> Graph {
    Graph { name: Some(name.to_vec()), ..graph.clone() }
}

/// The graph without the pairs of its last name, so that a record has room for another name.
fn without_last(graph: &Graph) -> Graph {
    let last = graph.names().last().expect("a sample with names").to_vec();
    let mut result = graph.clone();
    for kind in KINDS {
        result.pairs_mut(kind).retain(|(from, to)| *from != last && *to != last);
    }
    result
}

/// A target of this name: bare, and with these relations.
fn target(relations: &Graph, name: &[u8]) -> Target {
    Target { bare: Both::of(&Graph::named(name)), full: Both::of(&renamed(relations, name)) }
}

/// The targets of a question: one step away, as far as any, and not to be reached.
fn targets(graph: &Graph, full: bool) -> Targets {
    let steps = |name: &&[u8]| best_path(graph, &renamed(graph, name), full).map(|path| path.kinds.len());
    let names = graph.names();
    let near = names.iter().find(|name| steps(name) == Some(1)).expect("a name one step away");
    let far = names.iter().max_by_key(|name| steps(name)).expect("a farthest name");
    Targets { near: target(graph, near), far: target(graph, far), no: target(&without_last(graph), b"another graph") }
}
