//! The largest outputs of docs/FORMAT.md and of the header: each is reached, in an output of just that size, and a byte less gives 17.

use crate::encoder::{encode, BODIES, LONGEST, NAMES};
use crate::generate::numbered;
use crate::graph::{Kind, Name};
use crate::limits::longest_text;
use crate::model_tags::{encode as encode_tags, Map};
use crate::outputs::{unwritten, UNWRITTEN};
use crate::paths::{long_path, longest_path_names};
use crate::report::{Input, Report};

/// Compares all largest sizes.
pub fn largest_outputs(report: &mut Report, _rounds: usize) {
    let record = encode(&longest_text());
    reached(report, graph_name::MAX_GFA_BYTES, |out| graph_name::to_gfa_header_lines(&record, out, &mut UNWRITTEN.clone()));
    reached(report, graph_name::MAX_GAF_BYTES, |out| graph_name::to_gaf_header_lines(&record, out, &mut UNWRITTEN.clone()));
    reached(report, graph_name::MAX_NAME_BYTES, |out| set_tags(&record, [Some(out), None, None]));
    reached(report, graph_name::MAX_RELATIONS_TAG_BYTES, |out| set_tags(&record, [None, Some(out), None]));
    reached(report, graph_name::MAX_RELATIONS_TAG_BYTES, |out| set_tags(&record, [None, None, Some(out)]));
    let value = vec![b'v'; graph_name::MAX_VALUE_BYTES];
    let list = encode_tags(&Map::from([(b"key".to_vec(), value)]));
    reached(report, graph_name::MAX_VALUE_BYTES, |out| {
        graph_name::tags_remove(&mut list.clone(), b"key", out, &mut UNWRITTEN.clone(), &mut UNWRITTEN.clone())
    });
    let part = b"part";
    reached(report, graph_name::MAX_MESSAGE_WORDS + part.len(), |out| {
        graph_name::error_message(2, u64::MAX, part, out, &mut UNWRITTEN.clone())
    });
    let (first, second) = long_path(&longest_path_names()[0], NAMES - 1, |_| Kind::Subgraph);
    let (record, other) = (encode(&first), encode(&second));
    reached(report, graph_name::MAX_PATH_BYTES, |out| graph_name::translates_to(&record, &other, out, &mut UNWRITTEN.clone()));
    let (first, second) = long_path(&longest_description_names(), NAMES - 1, |_| Kind::Subgraph);
    let (record, other, desc) = (encode(&first), encode(&second), vec![b'd'; graph_name::MAX_DESC_BYTES]);
    reached(report, graph_name::MAX_DESCRIPTION_BYTES, |out| {
        graph_name::describe_relationship(&record, &other, &desc, &desc, out, &mut UNWRITTEN.clone())
    });
}

/// Compares a largest size: the call is done in an output of this size, and refused with 17 in one a byte shorter.
fn reached(report: &mut Report, most: usize, call: impl Fn(&mut [u8]) -> u32) {
    for (room, number) in [(most, 0), (most - 1, 17)] {
        let got = call(&mut unwritten(room));
        report.check("largest outputs", &[("room", Input::Number(room as u64))], &number, &got);
    }
}

/// Writes the three tags of a record: one to the output that is given, the others to outputs of their largest sizes.
fn set_tags(record: &[u8], outputs: [Option<&mut [u8]>; 3]) -> u32 {
    let sizes = [graph_name::MAX_NAME_BYTES, graph_name::MAX_RELATIONS_TAG_BYTES, graph_name::MAX_RELATIONS_TAG_BYTES];
    let mut others = sizes.map(unwritten);
    let [name, subgraph, translation] = &mut others;
    let [one, two, three] = outputs;
    let mut numbers = [UNWRITTEN; 6];
    let [has_name, name_length, has_subgraph, subgraph_length, has_translation, translation_length] = &mut numbers;
    graph_name::set_tags(
        record, one.unwrap_or(name), two.unwrap_or(subgraph), three.unwrap_or(translation),
        has_name, name_length, has_subgraph, subgraph_length, has_translation, translation_length,
    )
}

/// So many names of this mark with so many bytes together.
fn names_of(mark: u8, count: usize, bytes: usize) -> Vec<Name> {
    (0..count).map(|number| numbered(mark, number, bytes / count + usize::from(number < bytes % count))).collect()
}

/// The names of the path with the longest description: a start of 256 bytes, names that fill one record, one of a byte that both records have,
/// names that fill the other, and an empty target.
fn longest_description_names() -> Vec<Name> {
    let start = vec![numbered(b'a', 0, LONGEST)];
    let first = names_of(b'p', NAMES - 2, BODIES - LONGEST - 1);
    let second = names_of(b'q', NAMES - 2, BODIES - 1);
    [start, first, vec![b"m".to_vec()], second, vec![Vec::new()]].concat()
}
