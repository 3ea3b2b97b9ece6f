//! Blocks that are tag lists, and blocks that are none or may be none: one past a limit, of a wrong length, or damaged in a byte, in a number
//! or in the order of their keys.

use crate::generate::Random;
use crate::model_tags::{encode, number_at, write, Map, Tag, LIST, LONGEST_KEY, LONGEST_VALUE, TAGS};
use crate::tag_values::{capitals, full, limit_lists, list, many, map_of, small_lists};

/// A block: mostly a list, else a damaged one or one of a wrong length.
pub fn block(random: &mut Random) -> Vec<u8> {
    let map = list(random);
    match random.below(12) {
        0 => of_wrong_length(random, encode(&map)),
        1..=2 => damaged_byte(random, &map),
        3 => damaged_number(random, &map),
        4 => damaged_order(random, &map),
        _ => encode(&map),
    }
}

/// A block cut short or made longer.
fn of_wrong_length(random: &mut Random, mut block: Vec<u8>) -> Vec<u8> {
    let short = random.below(LIST);
    block.resize(*random.pick(&[0, 1, 3, 4, LIST - 1, LIST + 1, 2 * LIST, short]), 0);
    block
}

/// Where the last value of a list ends in its block.
fn content_end(map: &Map) -> usize {
    4 + map.iter().map(|(key, value)| 8 + key.len() + value.len()).sum::<usize>()
}

/// A list with one byte changed, mostly in its numbers, keys and values, else behind them.
fn damaged_byte(random: &mut Random, map: &Map) -> Vec<u8> {
    let (mut block, end) = (encode(map), content_end(map));
    let place = match random.below(8) {
        0 => random.below(4),
        1 => random.below(LIST),
        2 => (end + random.below(3)).min(LIST - 1),
        3 => LIST - 1,
        _ => random.below(end.min(600)),
    };
    block[place] = match random.below(4) {
        0 => block[place].wrapping_add(1),
        1 => block[place].wrapping_sub(1),
        2 => block[place] ^ (1 << random.below(8)),
        _ => random.next() as u8,
    };
    block
}

/// Numbers about the limits and about the ends of one, two and four bytes.
const NUMBERS: [u32; 16] =
    [0, 1, 31, 32, 33, 63, 64, 65, 255, 256, 8191, 8192, 8193, LIST as u32, 1 << 31, u32::MAX];

/// Puts a number of four bytes at a place.
fn put_number(block: &mut [u8], place: usize, number: u32) {
    block[place..place + 4].copy_from_slice(&number.to_le_bytes());
}

/// A list with its count or one of its lengths changed, or a byte moved from a key to its value or back, so that the sum stays.
fn damaged_number(random: &mut Random, map: &Map) -> Vec<u8> {
    let mut block = encode(map);
    let entry = 4 + 8 * random.below(map.len().max(1));
    let (key, value) = (number_at(&block, entry) as u32, number_at(&block, entry + 4) as u32);
    match random.below(4) {
        0 if key > 0 => {
            put_number(&mut block, entry, key - 1);
            put_number(&mut block, entry + 4, value + 1);
        }
        1 if value > 0 => {
            put_number(&mut block, entry, key + 1);
            put_number(&mut block, entry + 4, value - 1);
        }
        _ => {
            let place = *random.pick(&[0, entry, entry + 4]);
            put_number(&mut block, place, *random.pick(&NUMBERS));
        }
    }
    block
}

/// A list with two tags exchanged, one twice, one with a key of another, or one with a capital or a byte above 127 in its key.
fn damaged_order(random: &mut Random, map: &Map) -> Vec<u8> {
    let mut tags: Vec<Tag> = map.clone().into_iter().collect();
    let (one, two) = (random.below(tags.len().max(1)), random.below(tags.len().max(1)));
    match random.below(5) {
        0 if tags.len() > 1 => tags.swap(one, two),
        1 if !tags.is_empty() && tags.len() < TAGS => tags.insert(one, tags[one].clone()),
        2 if tags.len() > 1 => tags[one].0 = tags[two].0.clone(),
        3 if !tags.is_empty() => tags[one].0 = capitals(random, &tags[one].0),
        _ => tags.push((vec![*random.pick(&[127, 128, 255])], Vec::new())),
    }
    write_tags(&tags)
}

/// The block of tags in this order; without the last ones, where they do not fit.
fn write_tags(tags: &[Tag]) -> Vec<u8> {
    let fits = |count: &usize| 4 + tags[..*count].iter().map(|(key, value)| 8 + key.len() + value.len()).sum::<usize>() <= LIST;
    let count = (0..=tags.len()).rev().find(fits).expect("no tags");
    write(tags[..count].iter().map(|(key, value)| (key, value)))
}

/// Blocks most of which are no lists: keys that do not ascend, 33 tags, a key of 65 bytes, a value of 8,193, and keys with the bytes about the
/// ends of those that no stored key has.
pub fn blocks_beyond() -> Vec<Vec<u8>> {
    let long = vec![b'v'; LONGEST_VALUE + 1];
    let mut list = [[b"b", b"a"], [b"a", b"a"]].map(|keys| write_tags(&keys.map(|key| (key.to_vec(), b"v".to_vec())))).to_vec();
    list.extend([
        encode(&many(TAGS + 1)),
        encode(&map_of(&[(&[b'k'; LONGEST_KEY + 1], b"v")])),
        encode(&map_of(&[(b"a", &long)])),
        encode(&map_of(&[(b"a", b""), (b"b", &long)])),
    ]);
    for byte in [b'A', b'Z', 128, 255, b'M', b'@', b'[', 127] {
        list.push(encode(&map_of(&[(&[byte], b"v")])));
        list.push(encode(&map_of(&[(b"", b""), (&[b'!', byte], b"v")])));
    }
    list
}

/// Calls a function on every small damage of a block: each byte of its contents, and some after them, changed to each of a few values.
fn each_damage(map: &Map, call: &mut impl FnMut(&[u8])) {
    let (mut block, end) = (encode(map), content_end(map));
    for place in (0..end + 3).chain([LIST / 2, LIST - 1]) {
        let before = block[place];
        for change in [1, 2, 32, 128, 224, 255] {
            block[place] = before.wrapping_add(change);
            call(&block);
        }
        block[place] = before;
    }
}

/// Calls a function on blocks with one byte that is not zero behind their contents, near these, near the end, and between.
fn each_tail(map: &Map, call: &mut impl FnMut(&[u8])) {
    let (mut block, end) = (encode(map), content_end(map));
    for distance in (0..18).map(|bit| 1 << bit) {
        for place in [end + distance, LIST - distance] {
            block[place] = 1;
            call(&block);
            block[place] = 0;
        }
    }
}

/// Calls a function on every number of a block changed to each of those about the limits.
fn each_number(map: &Map, call: &mut impl FnMut(&[u8])) {
    for place in 0..=2 * map.len() {
        for number in NUMBERS {
            let mut block = encode(map);
            put_number(&mut block, 4 * place, number);
            call(&block);
        }
    }
}

/// Calls a function on fixed blocks: small lists, lists at the limits, wrong lengths, blocks past the limits, and damaged ones. The order has
/// those first that the fixed list is to have.
fn each_fixed_block(mut call: impl FnMut(&[u8])) {
    small_lists().iter().for_each(|map| call(&encode(map)));
    limit_lists().iter().for_each(|map| call(&encode(map)));
    let short = vec![0; LIST - 1];
    call(&short);
    call(&vec![0; LIST + 1]);
    blocks_beyond().iter().for_each(|block| call(block));
    [0, 1, 3, 4].iter().for_each(|&length| call(&short[..length]));
    for map in small_lists() {
        each_damage(&map, &mut call);
        each_number(&map, &mut call);
        each_tail(&map, &mut call);
    }
    let mut block = encode(&full());
    for place in (0..LIST).step_by(7919).chain([0, 3, 4, 8, 256, 259, 260, 324, LIST - 1]) {
        block[place] = block[place].wrapping_sub(32);
        call(&block);
        block[place] = block[place].wrapping_add(32);
    }
}

/// Calls a comparison on the fixed blocks and on so many random ones.
pub fn each_block(rounds: usize, seed: u64, mut call: impl FnMut(&mut Random, &[u8])) {
    let mut random = Random::new(seed);
    each_fixed_block(|block| call(&mut random, block));
    for _ in 0..rounds {
        let block = block(&mut random);
        call(&mut random, &block);
    }
}
