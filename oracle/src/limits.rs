//! Graphs at the limits of docs/FORMAT.md, and texts that pass them by one.

use crate::encoder::{BODIES, LONGEST, NAMES, PAIRS};
use crate::generate::{full_graph, full_names, numbered, Random};
use crate::graph::{Graph, Kind, Name, KINDS};
use crate::texts::WIDE;

/// The first so many pairs over names: each with itself, then each with the next, and so on, so that each name is soon used.
fn first_pairs(names: &[Name], count: usize) -> impl Iterator<Item = (Name, Name)> + '_ {
    let all = (0..names.len()).flat_map(move |gap| (0..names.len()).map(move |from| (from, (from + gap) % names.len())));
    all.take(count).map(|(from, to)| (names[from].clone(), names[to].clone()))
}

/// Short names of a mark.
fn short_names(mark: u8, count: usize) -> Vec<Name> {
    (0..count).map(|number| numbered(mark, number, 6)).collect()
}

/// A graph over these names, with so many pairs of a kind and no own name.
fn over(names: &[Name], kind: Kind, count: usize) -> Graph {
    let mut graph = Graph::default();
    graph.pairs_mut(kind).extend(first_pairs(names, count));
    graph
}

/// The same graph with an own name.
fn with_name(mut graph: Graph, name: &[u8]) -> Graph {
    graph.name = Some(name.to_vec());
    graph
}

/// The length at which a name beside 87 names of 256 bytes reaches the limit of all bytes.
const REST: usize = BODIES % LONGEST;

/// Names of 256 bytes, 87 of them, and one of this length.
fn long_names(mark: u8, last: usize) -> Vec<Name> {
    let most = BODIES / LONGEST;
    let mut names: Vec<Name> = (0..most).map(|number| numbered(mark, number, LONGEST)).collect();
    names.push(numbered(mark, most, last));
    names
}

/// A graph whose texts are the longest: 1,024 pairs of each kind over names of 256 bytes.
pub fn longest_text() -> Graph {
    let names = &long_names(b'L', REST)[..BODIES / LONGEST];
    let mut graph = Graph::named(&names[0]);
    for kind in KINDS {
        graph.pairs_mut(kind).extend(first_pairs(names, PAIRS));
    }
    graph
}

/// Graphs at a limit or one short of it, all within the sizes. The own name of some is in no pair.
pub fn graphs() -> Vec<Graph> {
    let short = short_names(b's', NAMES);
    let long = long_names(b'l', REST);
    let mut list = vec![
        full_graph(&mut Random::new(1), b'f'),
        over(&full_names(b'f'), Kind::Translation, NAMES),
        over(&short, Kind::Subgraph, NAMES),
        with_name(over(&short, Kind::Translation, PAIRS), &short[7]),
        with_name(over(&short[1..], Kind::Subgraph, NAMES - 1), b"own"),
        with_name(over(&short[2..], Kind::Translation, PAIRS - 1), b"own"),
        over(&short_names(b'k', 40), Kind::Subgraph, PAIRS),
        with_name(over(&short_names(b'k', 40), Kind::Subgraph, PAIRS - 1), b"k00003"),
        with_name(over(&long_names(b'l', REST - 8), Kind::Subgraph, 88), &long[0]),
        with_name(over(&long_names(b'l', REST - 11), Kind::Translation, 88), b"own"),
        with_name(over(&long[..60], Kind::Translation, PAIRS), &long_names(b'm', REST)[1]),
        longest_text(),
    ];
    list.push(over(&long, Kind::Subgraph, 88));
    list.push(with_name(over(&long[1..], Kind::Translation, 87), &long[0]));
    list.extend([Graph::default(), Graph::named(b""), Graph::named(b"own")]);
    list
}

/// Graphs one past a limit, whose tables and names still fit into a buffer.
pub fn graphs_beyond() -> Vec<Graph> {
    let short = short_names(b's', NAMES + 1);
    vec![
        over(&short, Kind::Subgraph, NAMES + 1),
        with_name(over(&short[1..], Kind::Translation, NAMES), b"own"),
        over(&short_names(b'k', 40), Kind::Subgraph, PAIRS + 1),
        over(&short_names(b'k', 40), Kind::Translation, PAIRS + 1),
        Graph::named(&vec![b'n'; LONGEST + 1]),
        over(&long_names(b'l', REST + 1), Kind::Subgraph, 88),
        over(&long_names(b'l', LONGEST), Kind::Translation, 88),
    ]
}

/// Names that take a graph at a limit to it or past it, in a list that also has names in use.
pub fn names() -> Vec<Name> {
    let mut list = vec![b"".to_vec(), b"a".to_vec(), b"b".to_vec(), b"own".to_vec(), b"s00007".to_vec(), b"k00003".to_vec()];
    list.extend([8, 9, 11, 12, LONGEST, LONGEST + 1].map(|length| vec![b'n'; length]));
    list.push(numbered(b'l', 0, LONGEST));
    list.push(full_names(b'f')[100].clone());
    list
}

/// The lines that say what a graph holds, as `H` lines or as `@` lines, written apart from the Rust.
pub fn text_of(graph: &Graph, gfa: bool) -> Vec<u8> {
    let (name, between) = if gfa { (&b"H\tNM:Z:"[..], b',') } else { (&b"@RN\t"[..], b'\t') };
    let mut text = Vec::new();
    if let Some(own) = &graph.name {
        text.extend_from_slice(&[name, own.as_slice(), b"\n"].concat());
    }
    for kind in KINDS {
        let start: &[u8] = match (kind, gfa) {
            (Kind::Subgraph, true) => b"H\tSG:Z:",
            (Kind::Translation, true) => b"H\tTL:Z:",
            (Kind::Subgraph, false) => b"@SG\t",
            (Kind::Translation, false) => b"@TL\t",
        };
        for (from, to) in graph.pairs(kind) {
            text.extend_from_slice(&[start, from.as_slice(), &[between], to.as_slice(), b"\n"].concat());
        }
    }
    text
}

/// The value of a relation tag.
pub fn tag_of(graph: &Graph, kind: Kind) -> Vec<u8> {
    let relations: Vec<Vec<u8>> = graph.pairs(kind).iter().map(|(from, to)| [from.as_slice(), b",", to].concat()).collect();
    relations.join(&b';')
}

/// Lines that add one name or pair.
pub fn further_lines() -> Vec<Vec<u8>> {
    let mut list = Vec::new();
    for name in names() {
        list.push([b"H\tNM:Z:", name.as_slice(), b"\n"].concat());
        list.push([b"@RN\t", name.as_slice(), b"\n"].concat());
        list.push([b"H\tSG:Z:a,", name.as_slice(), b"\n"].concat());
        list.push([b"H\tTL:Z:", name.as_slice(), b",a\n"].concat());
        list.push([b"@TL\t", name.as_slice(), b"\tb\n"].concat());
        list.push([b"@SG\tb\t", name.as_slice(), b"\t\n"].concat());
        list.push([b"H\tSG:i:", name.as_slice(), b"\tNM:Z:own\tNM:Z:", name.as_slice()].concat());
    }
    list
}

/// The typed field of a pair.
fn pair_field(kind: Kind, from: &[u8], to: &[u8]) -> Vec<u8> {
    let start: &[u8] = if kind == Kind::Subgraph { b"SG:Z:" } else { b"TL:Z:" };
    [start, from, b",", to].concat()
}

/// An `H` line of 400 fields, this one at this place; of the others some are pairs of the graph, the rest is passed over.
pub fn wide_line(graph: &Graph, field: &[u8], place: usize) -> Vec<u8> {
    let mut fields = vec![b"XX:i:1".to_vec(); WIDE];
    let known = KINDS.iter().flat_map(|&kind| graph.pairs(kind).iter().map(move |(from, to)| pair_field(kind, from, to)));
    for (other, pair) in (0..WIDE).step_by(20).zip(known) {
        fields[other] = pair;
    }
    fields[place] = field.to_vec();
    [b"H\t", fields.join(&b'\t').as_slice()].concat()
}

/// Lines of 400 fields that pass a size: the names or their bytes within the first, the pairs within the third. Fields between the pairs are
/// passed over.
pub fn passing_lines(random: &mut Random) -> Vec<u8> {
    let kind = *random.pick(&KINDS);
    let length = *random.pick(&[6, 60]);
    let new_names = |number: usize| (numbered(b'p', 2 * number, length), numbered(b'p', 2 * number + 1, length));
    let pairs: Vec<(Name, Name)> = match random.below(3) {
        0 => first_pairs(&short_names(b'k', 40), 3 * WIDE).collect(),
        _ => (0..WIDE).map(new_names).collect(),
    };
    let mut fields = Vec::new();
    for (from, to) in &pairs {
        if random.once_in(8) {
            fields.push(b"SG:i:7".to_vec());
        }
        fields.push(pair_field(kind, from, to));
    }
    let lines: Vec<Vec<u8>> = fields.chunks(WIDE).map(|fields| [b"H\t", fields.join(&b'\t').as_slice()].concat()).collect();
    lines.join(&b'\n')
}
