//! Paths over the union of two graphs, and the description of a path, written from docs/FORMAT.md alone.
//!
//! `best_path` measures how far each name is from the target, and then takes at each name the first step that comes nearer. `enumerated`
//! lists every path of the fewest steps and takes the first; it is slow, and checks the other on small graphs.

use crate::encoder::put;
use crate::graph::{Graph, Kind, Name, KINDS};
use std::collections::{BTreeMap, BTreeSet};

/// A path: its names from the start to the target, and the kind of the step after each but the last.
#[derive(Clone, PartialEq, Eq, Debug)]
pub struct Path {
    pub names: Vec<Name>,
    pub kinds: Vec<Kind>,
}

/// The steps that leave each name, in their order: a subgraph step first, then the smaller next name.
type Steps<'a> = BTreeMap<&'a [u8], BTreeSet<(Kind, &'a [u8])>>;

/// The steps of both graphs: all, or those of subgraph pairs alone.
fn steps<'a>(first: &'a Graph, second: &'a Graph, full: bool) -> Steps<'a> {
    let mut steps = Steps::new();
    for kind in KINDS.into_iter().filter(|&kind| full || kind == Kind::Subgraph) {
        for (from, to) in first.pairs(kind).iter().chain(second.pairs(kind)) {
            steps.entry(from.as_slice()).or_default().insert((kind, to.as_slice()));
        }
    }
    steps
}

/// How many steps each name from which the target can be reached is from it.
fn distances<'a>(steps: &Steps<'a>, target: &'a [u8]) -> BTreeMap<&'a [u8], usize> {
    let mut into: BTreeMap<&[u8], Vec<&'a [u8]>> = BTreeMap::new();
    for (&from, leaving) in steps {
        for &(_, to) in leaving {
            into.entry(to).or_default().push(from);
        }
    }
    let mut known = BTreeMap::from([(target, 0)]);
    let mut edge = vec![target];
    for distance in 1.. {
        let before = edge.iter().flat_map(|&name| into.get(name).into_iter().flatten());
        let fresh: BTreeSet<&[u8]> = before.copied().filter(|name| !known.contains_key(name)).collect();
        if fresh.is_empty() {
            break;
        }
        edge = fresh.into_iter().collect();
        known.extend(edge.iter().map(|&name| (name, distance)));
    }
    known
}

/// The path from the first graph to the second over the pairs of both: of those with the fewest steps the first in the order of docs/FORMAT.md.
pub fn best_path(first: &Graph, second: &Graph, full: bool) -> Option<Path> {
    let (start, target) = (first.name.as_deref()?, second.name.as_deref()?);
    let steps = steps(first, second, full);
    let distances = distances(&steps, target);
    let mut left = *distances.get(start)?;
    let mut path = Path { names: vec![start.to_vec()], kinds: Vec::new() };
    let mut current = start;
    while left > 0 {
        left -= 1;
        let nearer = |step: &&(Kind, &[u8])| distances.get(step.1) == Some(&left);
        let &(kind, next) = steps[current].iter().find(nearer).expect("a step that comes nearer");
        path.kinds.push(kind);
        path.names.push(next.to_vec());
        current = next;
    }
    Some(path)
}

/// The same path, found by listing all walks of one more step each time that come to no name twice.
pub fn enumerated(first: &Graph, second: &Graph, full: bool) -> Option<Path> {
    let (start, target) = (first.name.as_deref()?, second.name.as_deref()?);
    let steps = steps(first, second, full);
    let mut walks: Vec<Vec<(Kind, &[u8])>> = vec![Vec::new()];
    for _ in 0..first.names().len() + second.names().len() {
        let end = |walk: &Vec<(Kind, &[u8])>| -> Vec<u8> { walk.last().map_or(start, |step| step.1).to_vec() };
        let found = walks.iter().filter(|walk| end(walk) == target).min();
        if let Some(walk) = found {
            let names = std::iter::once(start).chain(walk.iter().map(|step| step.1)).map(|name| name.to_vec());
            return Some(Path { names: names.collect(), kinds: walk.iter().map(|step| step.0).collect() });
        }
        walks = longer(&walks, start, &steps);
    }
    None
}

/// All walks of one more step, to a name that the walk has not come to.
fn longer<'a>(walks: &[Vec<(Kind, &'a [u8])>], start: &'a [u8], steps: &Steps<'a>) -> Vec<Vec<(Kind, &'a [u8])>> {
    let mut result = Vec::new();
    for walk in walks {
        let end = walk.last().map_or(start, |step| step.1);
        let fresh = |step: &&(Kind, &[u8])| step.1 != start && walk.iter().all(|earlier| earlier.1 != step.1);
        for &step in steps.get(end).into_iter().flatten().filter(fresh) {
            let mut further = walk.clone();
            further.push(step);
            result.push(further);
        }
    }
    result
}

/// The bytes of a path: the number of names, then each one's length and its step's kind (2 for the last), then the names.
pub fn path_bytes(path: &Path) -> Vec<u8> {
    let mut bytes = Vec::new();
    put(&mut bytes, path.names.len());
    for (place, name) in path.names.iter().enumerate() {
        put(&mut bytes, name.len());
        put(&mut bytes, path.kinds.get(place).map_or(2, |&kind| kind as usize));
    }
    path.names.iter().for_each(|name| bytes.extend_from_slice(name));
    bytes
}

/// The description of how two graphs are related, as docs/FORMAT.md tells it of the Rust.
pub fn description(first: &Graph, second: &Graph, first_desc: &[u8], second_desc: &[u8]) -> Vec<u8> {
    if let Some(path) = best_path(first, second, true) {
        return described_path(&path, first_desc, second_desc);
    }
    if let Some(path) = best_path(second, first, true) {
        return described_path(&path, second_desc, first_desc);
    }
    let shown = |graph: &Graph| graph.name.clone().unwrap_or(b"(no name)".to_vec());
    let mut text = [b"Name 1 is for ", second_desc, b"\nName 2 is for ", first_desc, b"\nWith graph names:\n"].concat();
    for (number, name) in [(1, shown(second)), (2, shown(first))] {
        text.extend_from_slice(&listed(number, &name));
    }
    text
}

/// The description of a path: the names after the last empty one before the target, and then the start again.
fn described_path(path: &Path, from_desc: &[u8], to_desc: &[u8]) -> Vec<u8> {
    let steps = path.kinds.len();
    let begin = path.names[..steps].iter().rposition(|name| name.is_empty()).map_or(0, |place| place + 1);
    let mut names: Vec<&Name> = path.names[begin..steps].iter().collect();
    names.push(&path.names[0]);
    let mut text = [b"Name 1 is for ", from_desc, b"\n"].concat();
    for (number, kind) in (1..).zip(&path.kinds[begin..]) {
        let relation = if *kind == Kind::Subgraph { "is a subgraph of" } else { "translates to" };
        text.extend_from_slice(format!("Graph {} {} graph {}\n", number, relation, number + 1).as_bytes());
    }
    text.extend_from_slice(format!("Name {} is for ", names.len()).as_bytes());
    text.extend_from_slice(to_desc);
    text.extend_from_slice(b"\nWith graph names:\n");
    for (number, name) in (1..).zip(names) {
        text.extend_from_slice(&listed(number, name));
    }
    text
}

/// The line of a listed name.
fn listed(number: usize, name: &[u8]) -> Vec<u8> {
    [number.to_string().as_bytes(), b"\t", name, b"\n"].concat()
}
