//! Long runs of calls on one tag list: with the model on any keys and values, and with the Rust's map of tags on ASCII keys and valid UTF-8
//! values within the sizes.

use crate::generate::Random;
use crate::model_tags::{decode, encode, Map, EMPTY, LONGEST_KEY, LONGEST_VALUE, TAGS};
use crate::outputs::{filled, unwritten, UNWRITTEN};
use crate::report::{Hex, Input, Report};
use crate::rust_tags::Tags;
use crate::tag_calls;
use crate::tag_values::{key_for, list, many, value};

/// How many calls a run makes.
const STEPS: usize = 64;

/// Compares runs with the model and with the Rust.
pub fn runs(report: &mut Report, rounds: usize) {
    let mut random = Random::new(90);
    for _ in 0..rounds / 64 {
        run(report, &mut random);
    }
    let mut random = Random::new(91);
    for _ in 0..rounds / 64 {
        rust_run(report, &mut random);
    }
}

/// Compares one run with the model, from any list on; half of the runs stay near the greatest number of tags.
fn run(report: &mut Report, random: &mut Random) {
    let mut block = if random.once_in(2) { encode(&many(TAGS - random.below(3))) } else { encode(&list(random)) };
    for _ in 0..STEPS {
        let key = key_for(random, &decode(&block).expect("a list"));
        match random.below(8) {
            0 => tag_calls::get(report, &block, &key),
            1 => tag_calls::contains_key(report, &block, &key),
            2 => block = tag_calls::remove_in_rooms(report, &block, &key),
            3 => block = tag_calls::remove(report, &block, &key, LONGEST_VALUE),
            _ => block = tag_calls::insert(report, &block, &key, &value(random)),
        }
    }
}

/// A key of ASCII characters: any, few letters, or long.
pub fn ascii_key(random: &mut Random) -> String {
    let any: Vec<u8> = (0..=127).collect();
    let length = random.below(4);
    let bytes = match random.below(8) {
        0..=1 => random.bytes(length, &any),
        2 => random.bytes(LONGEST_KEY - length, b"zZ"),
        _ => random.bytes(length % 3, b"abcABC"),
    };
    String::from_utf8(bytes).expect("ASCII")
}

/// A value of characters of one to four bytes.
pub fn text_value(random: &mut Random) -> String {
    let length = match random.below(16) {
        0 => LONGEST_VALUE / 4,
        _ => random.below(5),
    };
    let mut text: String = (0..length).map(|_| *random.pick(&['a', 'Z', ',', '\0', 'é', 'K', '漢', '🌱'])).collect();
    if random.once_in(64) {
        text.extend(std::iter::repeat_n('v', LONGEST_VALUE - text.len()));
    }
    text
}

/// The block of the Rust's map.
pub fn block_of(tags: &Tags) -> Vec<u8> {
    let map: Map = tags.all().iter().map(|(key, value)| (key.as_bytes().to_vec(), value.as_bytes().to_vec())).collect();
    encode(&map)
}

/// Compares one run with the Rust, from the empty list on. A tag that would be one too many is asked for and not set.
fn rust_run(report: &mut Report, random: &mut Random) {
    let mut tags = Tags::default();
    let mut block = EMPTY.to_vec();
    for _ in 0..STEPS {
        let key = ascii_key(random);
        let has_room = tags.len() < TAGS || tags.contains_key(&key);
        match random.below(8) {
            0 => rust_get(report, &block, &tags, &key),
            1 => rust_contains_key(report, &block, &tags, &key),
            2 => block = rust_remove(report, &block, &mut tags, &key),
            _ if has_room => block = rust_insert(report, &block, &mut tags, &key, &text_value(random)),
            _ => rust_get(report, &block, &tags, &key),
        }
    }
}

/// Compares `tags_get` with the Rust's `get`: the value that stands where it says.
fn rust_get(report: &mut Report, list: &[u8], tags: &Tags, key: &str) {
    let [mut present, mut start, mut length] = [UNWRITTEN; 3];
    let number = graph_name::tags_get(list, key.as_bytes(), &mut present, &mut start, &mut length);
    let value = usize::try_from(start).ok().and_then(|start| list.get(start..)?.get(..length as usize)).unwrap_or(b"outside the list");
    let expected = tags.get(key).map_or((0, 0, b"".as_slice()), |value| (0, 1, value.as_bytes()));
    let inputs = [("list", Input::Bytes(list)), ("key", Input::Bytes(key.as_bytes()))];
    report.check("tags_get", &inputs, &expected, &(number, present, value));
}

/// Compares `tags_contains_key` with the Rust's `contains_key`.
fn rust_contains_key(report: &mut Report, list: &[u8], tags: &Tags, key: &str) {
    let mut answer = UNWRITTEN;
    let number = graph_name::tags_contains_key(list, key.as_bytes(), &mut answer);
    let inputs = [("list", Input::Bytes(list)), ("key", Input::Bytes(key.as_bytes()))];
    report.check("tags_contains_key", &inputs, &(0, u64::from(tags.contains_key(key))), &(number, answer));
}

/// Compares `tags_insert` with the Rust's `insert`. The result is the list after it.
fn rust_insert(report: &mut Report, list: &[u8], tags: &mut Tags, key: &str, value: &str) -> Vec<u8> {
    let mut got = list.to_vec();
    let number = graph_name::tags_insert(&mut got, key.as_bytes(), value.as_bytes());
    tags.insert(key, value);
    let after = block_of(tags);
    let inputs = [("list", Input::Bytes(list)), ("key", Input::Bytes(key.as_bytes())), ("value", Input::Bytes(value.as_bytes()))];
    report.check("tags_insert", &inputs, &(0, Hex(&after)), &(number, Hex(&got)));
    after
}

/// Compares `tags_remove` with the Rust's `remove`. The result is the list after it.
fn rust_remove(report: &mut Report, list: &[u8], tags: &mut Tags, key: &str) -> Vec<u8> {
    let (mut got, mut out) = (list.to_vec(), unwritten(LONGEST_VALUE));
    let [mut present, mut written] = [UNWRITTEN; 2];
    let number = graph_name::tags_remove(&mut got, key.as_bytes(), &mut out, &mut present, &mut written);
    let value = tags.remove(key);
    let after = block_of(tags);
    let text = value.as_deref().unwrap_or("").as_bytes();
    let inputs = [("list", Input::Bytes(list)), ("key", Input::Bytes(key.as_bytes()))];
    let expected_out = filled(text, LONGEST_VALUE);
    let expected = (0, [u64::from(value.is_some()), text.len() as u64], Hex(&after), Hex(&expected_out));
    report.check("tags_remove", &inputs, &expected, &(number, [present, written], Hex(&got), Hex(&out)));
    after
}
