//! The calls that are measured, ours and the Rust's on the same input.

use crate::name::GraphName;
use crate::sample::{Both, Sample};
use crate::timing::{least, timed, Times};
use crate::Tags;
use graph_name as ours;

/// An output with room for the longest text of any record.
fn output() -> Vec<u8> {
    vec![0; 1 << 21]
}

/// Reading a header text; the Rust takes its lines.
fn reading(input: &(Vec<u8>, Vec<String>)) -> Times {
    let (text, lines) = input;
    let mut record = vec![0; ours::RECORD_BYTES];
    let [mut line, mut start, mut length, mut offset] = [0; 4];
    least(
        || timed(|| ours::from_header_lines(text, &mut record, &mut line, &mut start, &mut length, &mut offset)),
        || timed(|| GraphName::from_header_lines(lines)),
    )
}

/// Reading `H` lines.
pub fn reading_gfa(sample: &Sample) -> Times {
    reading(&sample.gfa)
}

/// Reading `@` lines.
pub fn reading_gaf(sample: &Sample) -> Times {
    reading(&sample.gaf)
}

/// Reading tags, as the Rust writes them.
pub fn reading_tags(sample: &Sample) -> Times {
    let mut tags = Tags::default();
    sample.whole.value.set_tags(&mut tags);
    let [name, subgraph, translation] =
        ["pggname", "subgraph", "translation"].map(|key| tags.get(key).expect("a tag of each kind").as_bytes());
    let mut record = vec![0; ours::RECORD_BYTES];
    let [mut line, mut start, mut length, mut offset] = [0; 4];
    let mut read = || {
        ours::from_tags(1, name, 1, subgraph, 1, translation, &mut record, &mut line, &mut start, &mut length, &mut offset)
    };
    least(|| timed(&mut read), || timed(|| GraphName::from_tags(&tags)))
}

/// Writing `H` lines.
pub fn writing_gfa(sample: &Sample) -> Times {
    let (mut out, mut written) = (output(), 0);
    least(
        || timed(|| ours::to_gfa_header_lines(&sample.whole.record, &mut out, &mut written)),
        || timed(|| sample.whole.value.to_gfa_header_lines()),
    )
}

/// Writing `@` lines.
pub fn writing_gaf(sample: &Sample) -> Times {
    let (mut out, mut written) = (output(), 0);
    least(
        || timed(|| ours::to_gaf_header_lines(&sample.whole.record, &mut out, &mut written)),
        || timed(|| sample.whole.value.to_gaf_header_lines()),
    )
}

/// Writing tags.
pub fn writing_tags(sample: &Sample) -> Times {
    let (mut name, mut subgraph, mut translation) = (output(), output(), output());
    let [mut a, mut b, mut c, mut d, mut e, mut f] = [0; 6];
    let mut write = || {
        let record = &sample.whole.record;
        ours::set_tags(record, &mut name, &mut subgraph, &mut translation, &mut a, &mut b, &mut c, &mut d, &mut e, &mut f)
    };
    least(
        || timed(&mut write),
        || {
            let mut tags = Tags::default();
            timed(|| sample.whole.value.set_tags(&mut tags))
        },
    )
}

/// A change of a graph.
fn changing(own: &Both, entry: impl Fn(&mut [u8]) -> u32, method: impl Fn(&mut GraphName)) -> Times {
    let mut record = own.record.clone();
    least(
        || {
            record.copy_from_slice(&own.record);
            timed(|| entry(&mut record))
        },
        || {
            let mut value = own.value.clone();
            timed(|| method(&mut value))
        },
    )
}

/// Merging two halves of a graph.
pub fn merging(sample: &Sample) -> Times {
    let [own, other] = &sample.halves;
    let entry = |record: &mut [u8]| ours::add_relationships(record, &other.record);
    changing(own, entry, |value| value.add_relationships(&other.value))
}

/// Taking on a parent that has the other half.
pub fn taking_on(sample: &Sample) -> Times {
    let [own, other] = &sample.halves;
    let entry = |record: &mut [u8]| ours::make_subgraph_of(record, &other.record);
    changing(own, entry, |value| value.make_subgraph_of(&other.value))
}

/// One addition, of a pair of names that the graph has.
pub fn adding(sample: &Sample) -> Times {
    let (from, to) = &sample.added;
    let entry = |record: &mut [u8]| ours::add_subgraph(record, from.as_bytes(), to.as_bytes());
    changing(&sample.halves[0], entry, |value| value.add_subgraph(from, to))
}

/// Whether the graph is a subgraph of another.
pub fn subgraph_question(sample: &Sample, other: &Both) -> Times {
    let (mut out, mut answer) = (output(), 0);
    let own = &sample.whole;
    least(
        || timed(|| ours::is_subgraph_of(&own.record, &other.record, &mut out, &mut answer)),
        || timed(|| own.value.is_subgraph_of(&other.value)),
    )
}

/// Whether the graph translates to another.
pub fn full_question(sample: &Sample, other: &Both) -> Times {
    let (mut out, mut answer) = (output(), 0);
    let own = &sample.whole;
    least(
        || timed(|| ours::translates_to(&own.record, &other.record, &mut out, &mut answer)),
        || timed(|| own.value.translates_to(&other.value)),
    )
}

/// Describing how the graph is related to another.
pub fn describing(sample: &Sample, other: &Both) -> Times {
    let (mut out, mut written) = (output(), 0);
    let own = &sample.whole;
    least(
        || timed(|| ours::describe_relationship(&own.record, &other.record, b"p", b"q", &mut out, &mut written)),
        || timed(|| own.value.describe_relationship(&other.value, "p", "q")),
    )
}

/// The test of a record, in nanoseconds: `counts` does little else.
pub fn record_test(sample: &Sample) -> f64 {
    let [mut names, mut subgraph, mut translation] = [0; 3];
    let record = &sample.whole.record;
    least(|| timed(|| ours::counts(record, &mut names, &mut subgraph, &mut translation)), || timed(|| ())).ours
}
