//! Comparisons of the description of a relationship with the Rust's text.

use crate::encoder::{decode_two, encode};
use crate::generate::{self, Random};
use crate::graph::{narrow, wide};
use crate::outputs::{compare_texts, each_room, text_outcome, unwritten, UNWRITTEN};
use crate::paths::large_graphs;
use crate::records::each_two;
use crate::report::{Input, Report};

/// The greatest length of a description of a graph.
const LONGEST_DESC: usize = 4096;

/// Compares `describe_relationship`.
pub fn describe_relationship(report: &mut Report, rounds: usize) {
    for (first, second) in large_graphs() {
        let (record, other) = (encode(&first), encode(&second));
        describe(report, &record, &other, b"p", b"q");
        describe(report, &other, &record, b"", b"the other");
    }
    each_two(rounds / 4, 50, |random, record, other| {
        let (self_desc, other_desc) = (desc(random), desc(random));
        describe(report, record, other, &self_desc, &other_desc);
    });
}

/// A description of a graph: mostly a name, sometimes of the greatest length or over it.
fn desc(random: &mut Random) -> Vec<u8> {
    match random.below(12) {
        0 => vec![b'd'; LONGEST_DESC],
        1 => vec![b'd'; LONGEST_DESC + 1],
        _ => generate::name(random),
    }
}

/// The Rust's description of two buffers, or the refusal before the output's room is looked at: 15, 16 or 18.
fn expected_text(record: &[u8], other: &[u8], self_desc: &[u8], other_desc: &[u8]) -> Result<Vec<u8>, u32> {
    let (first, second) = decode_two(record, other)?;
    if self_desc.len() > LONGEST_DESC || other_desc.len() > LONGEST_DESC {
        return Err(18);
    }
    Ok(narrow(&first.to_rust().describe_relationship(&second.to_rust(), &wide(self_desc), &wide(other_desc))))
}

/// Compares a description in outputs of several rooms.
fn describe(report: &mut Report, record: &[u8], other: &[u8], self_desc: &[u8], other_desc: &[u8]) {
    let text = expected_text(record, other, self_desc, other_desc);
    each_room(text.as_ref().map_or(16, |text| text.len()), |room| {
        let expected = text_outcome(&text, room);
        let mut out = unwritten(room);
        let mut written = UNWRITTEN;
        let number = graph_name::describe_relationship(record, other, self_desc, other_desc, &mut out, &mut written);
        let inputs = [
            ("record", Input::Bytes(record)), ("other", Input::Bytes(other)), ("self_desc", Input::Bytes(self_desc)),
            ("other_desc", Input::Bytes(other_desc)), ("room", Input::Number(room as u64)),
        ];
        compare_texts(report, "describe_relationship", &inputs, &expected, &(number, out, written));
    });
}
