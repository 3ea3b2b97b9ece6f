//! Checks of the models of the tag list: a block is a list exactly if it is the encoding of what a plain reading of it shows; and
//! the model makes of a list what the Rust's map does.

use crate::generate::Random;
use crate::model_tags::{self, decode, encode, write, Map, Tag, EMPTY, LIST, LONGEST_KEY, LONGEST_VALUE, TAGS};
use crate::report::{Hex, Input, Report};
use crate::rust_tags::Tags;
use crate::tag_blocks::each_block;
use crate::tag_runs::{ascii_key, block_of, text_value};
use crate::tag_values::{limit_lists, list, small_lists};

/// Runs all checks.
pub fn run(report: &mut Report, rounds: usize) {
    layout(report, rounds);
    let mut random = Random::new(75);
    for _ in 0..rounds / 64 {
        rust_run(report, &mut random);
    }
}

/// Checks that a list comes back from its block.
fn there_and_back(report: &mut Report, map: &Map) {
    let block = encode(map);
    report.check("model: tag lists", &[("list", Input::Bytes(&block))], &Some(map), &decode(&block).as_ref());
}

/// Checks the layout: lists come back, and a block is a list exactly if it is an encoding.
fn layout(report: &mut Report, rounds: usize) {
    small_lists().iter().chain(&limit_lists()).for_each(|map| there_and_back(report, map));
    each_block(rounds / 4, 76, |random, block| {
        there_and_back(report, &list(random));
        report.check("model: tag lists", &[("list", Input::Bytes(block))], &is_encoding(block), &decode(block).is_some());
    });
}

/// The number of four bytes at a place, if it lies within the block.
fn number(block: &[u8], place: usize) -> Option<usize> {
    let four = block.get(place..place + 4)?.try_into().ok()?;
    usize::try_from(u32::from_le_bytes(four)).ok()
}

/// The tags that a block shows, if every place of them lies within it.
fn plain_reading(block: &[u8]) -> Option<Vec<Tag>> {
    let count = number(block, 0)?;
    let mut at = 4 + 8 * count;
    let mut tags = Vec::new();
    for place in 0..count {
        let (key, value) = (number(block, 4 + 8 * place)?, number(block, 8 + 8 * place)?);
        tags.push((block.get(at..at + key)?.to_vec(), block.get(at + key..at + key + value)?.to_vec()));
        at += key + value;
    }
    Some(tags)
}

/// Whether a block is the encoding of the tags that it shows, and these are within the sizes and ascend by stored keys.
fn is_encoding(block: &[u8]) -> bool {
    let Some(tags) = plain_reading(block) else {
        return false;
    };
    let is_stored = |key: &[u8]| key.len() <= LONGEST_KEY && key.is_ascii() && key == key.to_ascii_lowercase();
    let fits = tags.len() <= TAGS && tags.iter().all(|(key, value)| is_stored(key) && value.len() <= LONGEST_VALUE);
    let ascends = tags.windows(2).all(|two| two[0].0 < two[1].0);
    block.len() == LIST && fits && ascends && write(tags.iter().map(|(key, value)| (key, value))) == block
}

/// Checks a run of changes and questions against the Rust's map, from the empty list on.
fn rust_run(report: &mut Report, random: &mut Random) {
    let mut tags = Tags::default();
    let mut block = EMPTY.to_vec();
    for _ in 0..64 {
        let (key, value) = (ascii_key(random), text_value(random));
        let asked = key.as_bytes();
        let inputs = [("list", Input::Bytes(&block)), ("key", Input::Bytes(asked))];
        report.check("model: map of tags", &inputs, &Ok([u64::from(tags.contains_key(&key))]), &model_tags::contains_key(&block, asked));
        let got = model_tags::get(&block, asked).map(|[present, start, length]| (present, &block[start as usize..][..length as usize]));
        let expected = tags.get(&key).map_or((0, b"".as_slice()), |value| (1, value.as_bytes()));
        report.check("model: map of tags", &inputs, &Ok(expected), &got);
        let after = if tags.len() < TAGS && !random.once_in(4) {
            tags.insert(&key, &value);
            model_tags::insert(&block, asked, value.as_bytes()).map(|after| (after, None))
        } else {
            model_tags::remove(&block, asked, LONGEST_VALUE).map(|(after, value)| (after, Some(value)))
        };
        let (after, removed) = after.expect("a change within the sizes");
        if let Some(value) = removed {
            report.check("model: map of tags", &inputs, &tags.remove(&key).map(String::into_bytes), &value);
        }
        report.check("model: map of tags", &inputs, &Hex(&block_of(&tags)), &Hex(&after));
        block = after;
    }
}
