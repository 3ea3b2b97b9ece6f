//! Comparisons of one call of each function of a tag list with the model: its result, its numbers, and each byte of the list and of the output.

use crate::listed::TagList;
use crate::model_tags::{self, decode, ready, Values};
use crate::outputs::{each_room, filled, unwritten, UNWRITTEN};
use crate::report::{Hex, Input, Inputs, Report};

/// The outcome of a call that gives numbers alone: these, or a refusal that writes none.
fn numbers<const COUNT: usize>(expected: Result<[u64; COUNT], u32>) -> (u32, [u64; COUNT]) {
    expected.map_or_else(|number| (number, [UNWRITTEN; COUNT]), |numbers| (0, numbers))
}

/// Compares `tags_counts`.
pub fn counts(report: &mut Report, list: &[u8]) {
    let mut tags = UNWRITTEN;
    let number = graph_name::tags_counts(list, &mut tags);
    report.compare("tags_counts", &[("list", Input::Bytes(list))], numbers(model_tags::counts(list)), (number, [tags]));
}

/// Compares `tags_at`.
pub fn at(report: &mut Report, list: &[u8], place: u64) {
    let mut got = [UNWRITTEN; 5];
    let [present, key_start, key_length, value_start, value_length] = &mut got;
    let number = graph_name::tags_at(list, place, present, key_start, key_length, value_start, value_length);
    let inputs = [("list", Input::Bytes(list)), ("place", Input::Number(place))];
    report.compare("tags_at", &inputs, numbers(model_tags::at(list, place)), (number, got));
}

/// Compares `tags_get`.
pub fn get(report: &mut Report, list: &[u8], key: &[u8]) {
    let mut got = [UNWRITTEN; 3];
    let [present, start, length] = &mut got;
    let number = graph_name::tags_get(list, key, present, start, length);
    let inputs = [("list", Input::Bytes(list)), ("key", Input::Bytes(key))];
    report.compare("tags_get", &inputs, numbers(model_tags::get(list, key)), (number, got));
}

/// Compares `tags_contains_key`.
pub fn contains_key(report: &mut Report, list: &[u8], key: &[u8]) {
    let mut answer = UNWRITTEN;
    let number = graph_name::tags_contains_key(list, key, &mut answer);
    let inputs = [("list", Input::Bytes(list)), ("key", Input::Bytes(key))];
    report.compare("tags_contains_key", &inputs, numbers(model_tags::contains_key(list, key)), (number, [answer]));
}

/// Compares a change of a list with what is expected to become of it, a refusal leaving it. The result is the list expected after it.
fn change(
    report: &mut Report, entry: &'static str, inputs: &Inputs, list: &[u8], expected: Result<Vec<u8>, u32>,
    call: impl Fn(&mut [u8]) -> u32,
) -> Vec<u8> {
    let mut got = list.to_vec();
    let number = call(&mut got);
    let (result, after) = expected.map_or_else(|number| (number, list.to_vec()), |after| (0, after));
    report.compare(entry, inputs, (result, TagList(Hex(&after))), (number, TagList(Hex(&got))));
    after
}

/// Compares `tags_insert`. The result is the list expected after it.
pub fn insert(report: &mut Report, list: &[u8], key: &[u8], value: &[u8]) -> Vec<u8> {
    let inputs = [("list", Input::Bytes(list)), ("key", Input::Bytes(key)), ("value", Input::Bytes(value))];
    let expected = model_tags::insert(list, key, value);
    change(report, "tags_insert", &inputs, list, expected, |got| graph_name::tags_insert(got, key, value))
}

/// Compares `tags_set_graph_name`, with the three values of the record or the refusal of it. The result is the list expected after it.
pub fn set_graph_name(report: &mut Report, list: &[u8], record: &[u8], values: &Result<Values, u32>) -> Vec<u8> {
    let inputs = [("list", Input::Bytes(list)), ("record", Input::Bytes(record))];
    let expected = model_tags::set_graph_name(list, values);
    change(report, "tags_set_graph_name", &inputs, list, expected, |got| graph_name::tags_set_graph_name(got, record))
}

/// Compares `tags_remove` in an output of this room. The result is the list expected after it.
pub fn remove(report: &mut Report, list: &[u8], key: &[u8], room: usize) -> Vec<u8> {
    let (mut got, mut out) = (list.to_vec(), unwritten(room));
    let [mut present, mut written] = [UNWRITTEN; 2];
    let number = graph_name::tags_remove(&mut got, key, &mut out, &mut present, &mut written);
    let (result, after, value) = match model_tags::remove(list, key, room) {
        Ok((after, value)) => (0, after, Some(value)),
        Err(number) => (number, list.to_vec(), None),
    };
    let numbers = match &value {
        Some(value) => [u64::from(value.is_some()), value.as_ref().map_or(0, |value| value.len() as u64)],
        None => [UNWRITTEN; 2],
    };
    let expected_out = filled(&value.flatten().unwrap_or_default(), room);
    let inputs = [("list", Input::Bytes(list)), ("key", Input::Bytes(key)), ("room", Input::Number(room as u64))];
    let expected = (TagList(Hex(&after)), Hex(&expected_out), numbers);
    report.compare("tags_remove", &inputs, (result, expected), (number, (TagList(Hex(&got)), Hex(&out), [present, written])));
    after
}

/// Compares `tags_remove` in outputs of several rooms: none, one short of the value, just enough and more. The result is the list expected
/// after it, with room.
pub fn remove_in_rooms(report: &mut Report, list: &[u8], key: &[u8]) -> Vec<u8> {
    let held = decode(list).zip(ready(key).ok()).and_then(|(map, key)| map.get(&key).map(|value| value.len()));
    let mut after = list.to_vec();
    each_room(held.unwrap_or(0), |room| after = remove(report, list, key, room));
    after
}
