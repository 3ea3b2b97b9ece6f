//! Checks of the oracle's own models: the encoder against the decoder, the readings, messages, paths and descriptions against the Rust, and
//! the offsets of refusals against readings of texts that are cut off, on the inputs that the library is then asked about. The models of the
//! tag list are checked in `check_tags`.

use crate::encoder::{decode, encode, sizes, Raw, RECORD};
use crate::generate::{self, Random};
use crate::graph::{narrow, wide, Graph, Kind, KINDS};
use crate::model_paths::{best_path, description, enumerated};
use crate::model_reading::{message, read_header, read_tags, rust_lines, Refusal, TagValues};
use crate::model_strict::{Expression, Grammar};
use crate::name::GraphName;
use crate::paths::large_graphs;
use crate::reading::{each_header_text, each_limit_tags, each_limit_text, each_tags};
use crate::records::each_buffer;
use crate::report::{Hex, Input, Inputs, Report};
use crate::{check_tags, limits, Tags};

/// Runs all checks.
pub fn run(report: &mut Report, rounds: usize) {
    layout(report, rounds);
    each_header_text(rounds, |text| header(report, text));
    each_limit_text(|text| header(report, text));
    each_tags(rounds, |values| tags(report, values));
    each_limit_tags(|values| tags(report, values));
    paths(report, rounds);
    strict(report);
    check_tags::run(report, rounds);
}

/// Checks that a graph is within the sizes and comes back from its record and from the Rust.
fn there_and_back(report: &mut Report, graph: &Graph) {
    let record = encode(graph);
    let back = (sizes(graph), decode(&record), Graph::of_wide(&graph.to_rust()));
    report.check("model: layout", &[("record", Input::Bytes(&record))], &(0, Ok(graph.clone()), graph.clone()), &back);
}

/// Checks the layout: graphs come back, and a buffer is a record exactly if it is the encoding of what a plain reading of its tables shows.
fn layout(report: &mut Report, rounds: usize) {
    limits::graphs().iter().for_each(|graph| there_and_back(report, graph));
    let beyond: Vec<u32> = limits::graphs_beyond().iter().map(sizes).collect();
    report.check("model: layout", &[], &vec![12, 12, 13, 13, 11, 14, 14], &beyond);
    each_buffer(rounds, 70, |random, buffer| {
        there_and_back(report, &generate::graph(random));
        let expected = if buffer.len() != RECORD { 15 } else if is_encoding(buffer) { 0 } else { 16 };
        let number = decode(buffer).err().unwrap_or(0);
        report.check("model: layout", &[("record", Input::Bytes(buffer))], &expected, &number);
    });
}

/// Whether a buffer is the encoding of the graph that its tables show when nothing about them is tested beforehand.
fn is_encoding(buffer: &[u8]) -> bool {
    plain_reading(buffer).is_some_and(|graph| sizes(&graph) == 0 && Raw::of(&graph).write() == buffer)
}

/// The graph that the tables of a buffer show, if every place in them lies within the buffer.
fn plain_reading(buffer: &[u8]) -> Option<Graph> {
    let number = |place: usize| Some(usize::from(u16::from_le_bytes([*buffer.get(place)?, *buffer.get(place + 1)?])));
    let (names, own, counts) = (number(0)?, number(2)?, [number(4)?, number(6)?]);
    let first = 8 + 4 * (names + counts[0] + counts[1]);
    let name = |place: usize| {
        let start = first + number(8 + 4 * place)?;
        (place < names).then_some(buffer.get(start..start + number(10 + 4 * place)?)?.to_vec())
    };
    let mut graph = Graph { name: if own == 0 { None } else { Some(name(own - 1)?) }, ..Graph::default() };
    let mut at = 8 + 4 * names;
    for kind in KINDS {
        for _ in 0..counts[kind as usize] {
            let pair = (name(number(at)?)?, name(number(at + 2)?)?);
            graph.pairs_mut(kind).insert(pair);
            at += 4;
        }
    }
    Some(graph)
}

/// Checks a reading against what the Rust gives: the graph of a success, and the text of a refusal with a number up to 10. The Rust
/// knows no sizes, so that refusals with higher numbers are not checked.
fn against_rust(
    report: &mut Report, entry: &'static str, inputs: &[(&str, Input)], reading: Result<Graph, Refusal>, text: &[u8],
    rust: Result<GraphName, String>,
) {
    let part = |refusal: &Refusal| text[refusal.start as usize..(refusal.start + refusal.length) as usize].to_vec();
    let model = match reading {
        Err(refusal) if refusal.number > 10 => return,
        Err(refusal) => Err(message(refusal.number, refusal.line, &part(&refusal))),
        Ok(graph) => Ok(graph),
    };
    let rust = rust.map(|value| Graph::of_plain(&value)).map_err(String::into_bytes);
    report.check(entry, inputs, &rust, &model);
}

/// Checks the place of a refusal against an offset found in another way: it is the refusal's offset, and what is quoted begins there.
fn offset(report: &mut Report, inputs: &Inputs, refusal: &Refusal, found: usize) {
    let start = if (2..=10).contains(&refusal.number) { found } else { 0 };
    report.check("model: offsets", inputs, &[found as u64, start as u64], &[refusal.offset, refusal.start]);
}

/// The start of the first part with which a text, cut off behind that part, is refused: of the parts from a place on, which this byte
/// separates. A text that is refused stays so with more parts behind it, so the part is found by halving.
fn first_refused(text: &[u8], from: usize, between: u8, refused: impl Fn(&[u8]) -> bool) -> usize {
    let ends: Vec<usize> = (from..=text.len()).filter(|&place| place == text.len() || text[place] == between).collect();
    let fine = ends.partition_point(|&end| !refused(&text[..end]));
    if fine == 0 { from } else { ends[fine - 1] + 1 }
}

/// Where a line begins and where it ends, by the bytes 10 of the text.
fn line_place(text: &[u8], line: usize) -> (usize, usize) {
    let ends: Vec<usize> = (0..=text.len()).filter(|&place| place == text.len() || text[place] == b'\n').collect();
    (if line == 1 { 0 } else { ends[line - 2] + 1 }, ends[line - 1])
}

/// Checks the offset of a refused header text from the text, the number and the line alone. For 1, 2 and 6 to 8 it is where the line begins;
/// on an `@` line for the sizes 4 bytes on; on an `H` line where the first field begins with which the text, cut off behind that field, is
/// refused with this number.
fn header_offset(report: &mut Report, text: &[u8], refusal: &Refusal) {
    let (start, end) = line_place(text, refusal.line as usize);
    let refused = |cut: &[u8]| read_header(cut).is_err_and(|other| other.number == refusal.number);
    let found = match refusal.number {
        1 | 2 | 6..=8 => start,
        _ if text[start] == b'@' => start + 4,
        _ => first_refused(&text[..end], start + 2, b'\t', refused),
    };
    offset(report, &[("text", Input::Bytes(text))], refusal, found);
}

/// Checks the reading of a header text: the offset of a refusal, and what the Rust gives if the text is valid UTF-8.
fn header(report: &mut Report, text: &[u8]) {
    let reading = read_header(text);
    if let Err(refusal) = &reading {
        header_offset(report, text, refusal);
    }
    if let Ok(valid) = std::str::from_utf8(text) {
        let rust = GraphName::from_header_lines(&rust_lines(valid));
        against_rust(report, "model: header lines", &[("text", Input::Bytes(text))], reading, text, rust);
    }
}

/// Checks the offset of refused tag values. With the tags behind it left out, the first tag that is refused with this number is the one in
/// which the offset counts: 0 in the name, else where the first relation begins with which the value, cut off behind it, is so refused.
fn tags_offset(report: &mut Report, values: TagValues, refusal: &Refusal) {
    let refused = |values: TagValues| read_tags(values).is_err_and(|other| other.number == refusal.number);
    let [name, subgraph, translation] = [values.name, values.subgraph, values.translation].map(|value| value.unwrap_or(b""));
    let first_two = TagValues { translation: None, ..values };
    let found = if refused(TagValues { subgraph: None, ..first_two }) {
        0
    } else if refused(first_two) {
        first_refused(subgraph, 0, b';', |cut| refused(TagValues { subgraph: Some(cut), ..first_two }))
    } else {
        first_refused(translation, 0, b';', |cut| refused(TagValues { translation: Some(cut), ..values }))
    };
    let inputs = [("name", Input::Bytes(name)), ("subgraph", Input::Bytes(subgraph)), ("translation", Input::Bytes(translation))];
    offset(report, &inputs, refusal, found);
}

/// Checks the reading of tag values: the offset of a refusal, and what the Rust gives if the values are valid UTF-8.
fn tags(report: &mut Report, values: TagValues) {
    let reading = read_tags(values);
    if let Err(refusal) = &reading {
        tags_offset(report, values, refusal);
    }
    let mut tags = Tags::default();
    let keys = [("pggname", values.name), ("subgraph", values.subgraph), ("translation", values.translation)];
    for (key, value) in keys {
        match value.map(std::str::from_utf8) {
            Some(Ok(valid)) => tags.insert(key, valid),
            Some(Err(_)) => return,
            None => {}
        }
    }
    let at_subgraph = matches!(reading, Err(Refusal { number: 9, .. }));
    let text = if at_subgraph { values.subgraph } else { values.translation }.unwrap_or(b"");
    let inputs = [("subgraph", Input::Bytes(values.subgraph.unwrap_or(b""))), ("translation", Input::Bytes(text))];
    against_rust(report, "model: tags", &inputs, reading, text, GraphName::from_tags(&tags));
}

/// Checks paths and descriptions against the Rust, and on small graphs the search against the list of all paths.
fn paths(report: &mut Report, rounds: usize) {
    for (first, second) in large_graphs() {
        path(report, &first, &second);
        path(report, &second, &first);
    }
    let mut random = Random::new(71);
    for _ in 0..rounds / 4 {
        let (first, second) = generate::two_graphs(&mut random);
        path(report, &first, &second);
        let names = generate::names(&mut random, 5);
        let (first, second) = (generate::graph_over(&mut random, &names, 9), generate::graph_over(&mut random, &names, 9));
        let (record, other) = (encode(&first), encode(&second));
        for full in [false, true] {
            let expected = enumerated(&first, &second, full);
            let inputs = [("record", Input::Bytes(&record)), ("other", Input::Bytes(&other))];
            report.check("model: paths", &inputs, &expected, &best_path(&first, &second, full));
        }
    }
}

/// Checks the answers and the description of two graphs against the Rust.
fn path(report: &mut Report, first: &Graph, second: &Graph) {
    let (record, other) = (encode(first), encode(second));
    let inputs = [("record", Input::Bytes(&record)), ("other", Input::Bytes(&other))];
    let (one, two) = (first.to_rust(), second.to_rust());
    let rust = [one.is_subgraph_of(&two), one.translates_to(&two)];
    let model = [false, true].map(|full| best_path(first, second, full).is_some());
    report.check("model: paths", &inputs, &rust, &model);
    let text = narrow(&one.describe_relationship(&two, &wide(b"p"), &wide(b"q\xff")));
    report.check("model: descriptions", &inputs, &Hex(&text), &Hex(&description(first, second, b"p", b"q\xff")));
}

/// Checks the matcher of expressions, and the strict reading on lines with known answers.
fn strict(report: &mut Report) {
    let number = Expression::new(r"[-+]?[0-9]*\.?[0-9]+([eE][-+]?[0-9]+)?");
    let fine: [&[u8]; 7] = [b"1", b"-1", b"+.5", b"1.5", b"12", b"1e5", b"1.5E-10"];
    let faulty: [&[u8]; 8] = [b"", b"+", b"1.", b".", b"1e", b"1e+", b"--1", b"1.5.5"];
    for (text, expected) in fine.iter().map(|text| (text, true)).chain(faulty.iter().map(|text| (text, false))) {
        report.check("model: strict", &[("value", Input::Bytes(text))], &expected, &number.matches(text));
    }
    let grammar = Grammar::new();
    let lines: [(&[u8], u64); 12] = [
        (b"H", 0), (b"", 1), (b"H\t", 2), (b"H\tVN:Z:1.0", 0), (b"H\tVN:Z:", 2), (b"H\tVN:Z:1\tVN:i:2", 3), (b"H\tVN:i:1\tab:A:xx", 3),
        (b"H\tS2:Z:a", 2), (b"@RN\ta", 1), (b"H\tab:B:c,1,2", 0), (b"H\tab:B:c", 2), (b"H\tab:Z:a\n", 2),
    ];
    for (line, expected) in lines {
        report.check("model: strict", &[("line", Input::Bytes(line))], &expected, &grammar.check(line));
    }
    assert!(Kind::Subgraph < Kind::Translation, "the order of steps");
}
