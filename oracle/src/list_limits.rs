//! Which limits a record, or the call of a tag list, is at: by these the fixed list chooses among large cases.

use crate::buffers::content_end;
use crate::encoder::{decode, Counts, BODIES, LONGEST, NAMES, PAIRS};
use crate::model_tags::{number_at, LIST, LONGEST_KEY, LONGEST_VALUE, TAGS};

/// The limits that a record reaches, as a number: names, pairs, bytes of names, the length of a name.
pub fn limits_of(record: &[u8]) -> usize {
    let Ok(graph) = decode(record) else {
        return 0;
    };
    let counts = Counts::of(record);
    let reached = [
        counts.names == NAMES,
        counts.subgraph == PAIRS || counts.translation == PAIRS,
        content_end(record) - counts.bodies() == BODIES,
        graph.names().iter().any(|name| name.len() == LONGEST),
    ];
    reached.iter().enumerate().map(|(place, &is)| usize::from(is) << place).sum()
}

/// The number of tags that a block says it has.
fn tag_count(block: &[u8]) -> usize {
    if block.len() == LIST { number_at(block, 0) } else { 0 }
}

/// The lengths of the keys of a block of at most 33 tags, or with this distance of 4 those of the values.
fn lengths(block: &[u8], distance: usize) -> impl Iterator<Item = usize> + '_ {
    let count = tag_count(block);
    (0..if count <= TAGS + 1 { count } else { 0 }).map(move |place| number_at(block, 4 + 8 * place + distance))
}

/// Whether a block has a key of the greatest length, or one more.
fn has_long_key(block: &[u8]) -> bool {
    lengths(block, 0).any(|length| (LONGEST_KEY..=LONGEST_KEY + 1).contains(&length))
}

/// Whether a block has a value of the greatest length, or one more.
fn has_long_value(block: &[u8]) -> bool {
    lengths(block, 4).any(|length| (LONGEST_VALUE..=LONGEST_VALUE + 1).contains(&length))
}

/// The limit at which, or one past which, the call of a tag list is, as a number from 1: the first of several, and 0 for none. It is told by
/// the list before and after, and by the lengths of the key and the value that go in.
pub fn tag_limit_of(before: &[u8], after: &[u8], key: usize, value: usize) -> usize {
    let reached = [
        value == LONGEST_VALUE + 1,
        value == LONGEST_VALUE,
        key == LONGEST_KEY + 1,
        key == LONGEST_KEY,
        lengths(before, 0).nth(TAGS).is_some_and(|length| length > 0),
        tag_count(before) == TAGS && tag_count(after) == TAGS && !lengths(before, 0).eq(lengths(after, 0)),
        tag_count(before) == TAGS,
        tag_count(after) == TAGS,
        has_long_value(before),
        has_long_value(after),
        has_long_key(before),
    ];
    reached.iter().position(|&is| is).map_or(0, |place| place + 1)
}
