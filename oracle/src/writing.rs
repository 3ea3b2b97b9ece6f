//! Comparisons of the writers with the Rust's: header lines of both kinds, each line ended by byte 10, and the three tag values.

use crate::encoder::decode;
use crate::generate::Random;
use crate::graph::{narrow, Graph};
use crate::model_tags::{Values, THREE};
use crate::name::GraphName;
use crate::outputs::{compare_texts, each_room, filled, text_outcome, unwritten, UNWRITTEN};
use crate::records::each_buffer;
use crate::report::{Hex, Input, Report};
use crate::Tags;

/// The Rust's method and the library's entry of a writer of header lines.
struct Writer {
    entry: &'static str,
    method: fn(&GraphName) -> Vec<String>,
    call: fn(&[u8], &mut [u8], &mut u64) -> u32,
}

/// Compares `to_gfa_header_lines`.
pub fn to_gfa_header_lines(report: &mut Report, rounds: usize) {
    let writer =
        Writer { entry: "to_gfa_header_lines", method: GraphName::to_gfa_header_lines, call: graph_name::to_gfa_header_lines };
    header_lines(report, rounds, &writer);
}

/// Compares `to_gaf_header_lines`.
pub fn to_gaf_header_lines(report: &mut Report, rounds: usize) {
    let writer =
        Writer { entry: "to_gaf_header_lines", method: GraphName::to_gaf_header_lines, call: graph_name::to_gaf_header_lines };
    header_lines(report, rounds, &writer);
}

/// Compares a writer of header lines on buffers of any kind.
fn header_lines(report: &mut Report, rounds: usize, writer: &Writer) {
    each_buffer(rounds / 4, 30, |_, buffer| lines_of(report, writer, buffer));
}

/// Compares the header lines of one buffer in outputs of several rooms.
fn lines_of(report: &mut Report, writer: &Writer, buffer: &[u8]) {
    let text = decode(buffer).map(|graph| joined(&(writer.method)(&graph.to_rust())));
    each_room(text.as_ref().map_or(16, |text| text.len()), |room| {
        let expected = text_outcome(&text, room);
        let mut out = unwritten(room);
        let mut written = UNWRITTEN;
        let number = (writer.call)(buffer, &mut out, &mut written);
        let inputs = [("record", Input::Bytes(buffer)), ("room", Input::Number(room as u64))];
        compare_texts(report, writer.entry, &inputs, &expected, &(number, out, written));
    });
}

/// Lines of the Rust's, each ended by byte 10.
fn joined(lines: &[String]) -> Vec<u8> {
    lines.iter().flat_map(|line| [narrow(line), vec![b'\n']].concat()).collect()
}

/// The three tag values that the Rust gives for a graph.
pub fn rust_tags(graph: &Graph) -> Values {
    let mut tags = Tags::default();
    for key in THREE {
        tags.insert(key, "a value from before");
    }
    graph.to_rust().set_tags(&mut tags);
    THREE.map(|key| tags.get(key).map(|value| narrow(value)))
}

/// Compares `set_tags`.
pub fn set_tags(report: &mut Report, rounds: usize) {
    each_buffer(rounds / 4, 32, |random, buffer| tags_of(report, random, buffer));
}

/// Compares the tag values of one buffer: in outputs of just enough room, in each with one of them short, and in random ones.
fn tags_of(report: &mut Report, random: &mut Random, buffer: &[u8]) {
    let values = decode(buffer).map(|graph| rust_tags(&graph));
    let length = |value: &Option<Vec<u8>>| value.as_ref().map_or(0, |value| value.len());
    let lengths = values.as_ref().map_or([16; 3], |values| values.each_ref().map(length));
    let mut short = lengths;
    let place = random.below(3);
    short[place] = short[place].saturating_sub(1 + random.below(2));
    let more = lengths.map(|length| length + random.below(4));
    for rooms in [lengths, short, more] {
        tags_in(report, buffer, &values, rooms);
    }
}

/// What a call of `set_tags` gives: its result, the three outputs and the six numbers.
type TagsOutcome = (u32, [Vec<u8>; 3], [u64; 6]);

/// The outcome that is expected of `set_tags`, with outputs of these rooms.
fn expected_tags(values: &Result<Values, u32>, rooms: [usize; 3]) -> TagsOutcome {
    let refused = |number: u32| (number, rooms.map(unwritten), [UNWRITTEN; 6]);
    let values = match values {
        Ok(values) => values,
        Err(number) => return refused(*number),
    };
    if values.iter().zip(rooms).any(|(value, room)| value.as_ref().is_some_and(|value| value.len() > room)) {
        return refused(17);
    }
    let out = |place: usize| filled(values[place].as_deref().unwrap_or(b""), rooms[place]);
    let present = |place: usize| u64::from(values[place].is_some());
    let length = |place: usize| values[place].as_ref().map_or(0, |value| value.len() as u64);
    let numbers = [present(0), length(0), present(1), length(1), present(2), length(2)];
    (0, [out(0), out(1), out(2)], numbers)
}

/// Compares the tag values of one buffer in outputs of these rooms.
fn tags_in(report: &mut Report, buffer: &[u8], values: &Result<Values, u32>, rooms: [usize; 3]) {
    let [mut name, mut subgraph, mut translation] = rooms.map(unwritten);
    let mut numbers = [UNWRITTEN; 6];
    let [has_name, name_length, has_subgraph, subgraph_length, has_translation, translation_length] = &mut numbers;
    let number = graph_name::set_tags(
        buffer, &mut name, &mut subgraph, &mut translation,
        has_name, name_length, has_subgraph, subgraph_length, has_translation, translation_length,
    );
    let expected = expected_tags(values, rooms);
    let inputs = [
        ("record", Input::Bytes(buffer)), ("room for the name", Input::Number(rooms[0] as u64)),
        ("room for subgraphs", Input::Number(rooms[1] as u64)), ("room for translations", Input::Number(rooms[2] as u64)),
    ];
    let got = (number, ([Hex(&name), Hex(&subgraph), Hex(&translation)], numbers));
    report.compare("set_tags", &inputs, (expected.0, (expected.1.each_ref().map(|out| Hex(out)), expected.2)), got);
}
