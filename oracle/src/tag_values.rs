//! Keys, values and tag lists to try: ones that fit and ones that are refused, lists of few tags, lists at the limits, and small ones to damage.

use crate::generate::Random;
use crate::model_tags::{Map, LONGEST_KEY, LONGEST_VALUE, TAGS, THREE};

/// Bytes of keys that are no letters, among them the neighbours of the capitals and of the small letters, and the last that a key may hold.
const UNUSUAL: &[u8] = b"\0\n @[`{-\x7f";

/// Keys near those of a record's three tags.
const NEAR: [&str; 8] = ["pggnam", "pggname0", "subgrap", "subgraphs", "translatio", "translation\0", "Translation", "PggName"];

/// A key that can be used, with capitals or without.
pub fn fine_key(random: &mut Random) -> Vec<u8> {
    let length = random.below(3);
    match random.below(16) {
        0 => Vec::new(),
        1 => random.bytes(LONGEST_KEY - length % 2, b"kK"),
        2..=3 => random.bytes(1 + length, UNUSUAL),
        4..=5 => random.pick(&THREE).as_bytes().to_vec(),
        6 => random.pick(&NEAR).as_bytes().to_vec(),
        _ => random.bytes(1 + length, b"abcABZ"),
    }
}

/// A key that is refused: over the greatest length, by one or by so many that two bytes do not count them, or with a byte above 127.
fn refused_key(random: &mut Random) -> Vec<u8> {
    match random.below(4) {
        0 => vec![b'k'; LONGEST_KEY + 1],
        1 => vec![b'k'; *random.pick(&[256, 256 + 3, 65536, 65536 + 3])],
        _ => {
            let length = *random.pick(&[1, 2, 3, LONGEST_KEY, LONGEST_KEY + 1]);
            let mut key = random.bytes(length, b"abA");
            let place = random.below(key.len());
            key[place] = *random.pick(&[128, 129, 195, 225, 255]);
            key
        }
    }
}

/// A key in another form: one of its letters, or all of them, as capitals.
pub fn capitals(random: &mut Random, key: &[u8]) -> Vec<u8> {
    let mut key = key.to_vec();
    match key.len() {
        0 => {}
        length if random.once_in(2) => key[random.below(length)].make_ascii_uppercase(),
        _ => key.make_ascii_uppercase(),
    }
    key
}

/// A key to ask a list for: mostly one that it holds, in one form or another, else any.
pub fn key_for(random: &mut Random, map: &Map) -> Vec<u8> {
    let held = map.keys().nth(random.below(map.len().max(1)));
    match (random.below(8), held) {
        (0, _) => refused_key(random),
        (1..=2, Some(key)) => capitals(random, key),
        (3..=4, Some(key)) => key.clone(),
        _ => fine_key(random),
    }
}

/// A value that fits: mostly short, at times of the greatest length or one less.
pub fn fine_value(random: &mut Random) -> Vec<u8> {
    let length = random.below(4);
    match random.below(24) {
        0 => vec![b'v'; LONGEST_VALUE - length % 2],
        1..=4 => Vec::new(),
        5 => vec![0; 1 + length],
        6 => random.bytes(200 * (1 + length), b"xyz\0\xff"),
        _ => random.bytes(1 + length, b"ab,;Z\0\x80\xff"),
    }
}

/// A value: mostly one that fits, else one too long, by one or by so many that two bytes do not count them.
pub fn value(random: &mut Random) -> Vec<u8> {
    if random.once_in(12) { vec![b'v'; *random.pick(&[LONGEST_VALUE + 1, LONGEST_VALUE + 1, 65536, 65536 + 3])] } else { fine_value(random) }
}

/// So many tags with short keys and empty values.
pub fn many(count: usize) -> Map {
    (0..count).map(|number| (format!("k{number:02}").into_bytes(), Vec::new())).collect()
}

/// A list: mostly of few tags, at times near the greatest number.
pub fn list(random: &mut Random) -> Map {
    let mut map = if random.once_in(6) { many(TAGS - random.below(4)) } else { Map::new() };
    let more = random.below(5).min(TAGS - map.len());
    for _ in 0..more {
        map.insert(fine_key(random).to_ascii_lowercase(), fine_value(random));
    }
    map
}

/// A list of these tags.
pub fn map_of(tags: &[(&[u8], &[u8])]) -> Map {
    tags.iter().map(|(key, value)| (key.to_vec(), value.to_vec())).collect()
}

/// Small lists whose blocks are damaged at every place. Keys and values of some end in zeros, or are empty.
pub fn small_lists() -> Vec<Map> {
    vec![
        Map::new(),
        map_of(&[(b"a", b"b")]),
        map_of(&[(b"", b"")]),
        map_of(&[(b"", b"x"), (b"a", b""), (b"ab", b"yz")]),
        map_of(&[(b"a", b"\0\0"), (b"a\0", b"\xff")]),
        map_of(&[(b"pggname", b"g"), (b"subgraph", b"g,h"), (b"translation", b"")]),
        map_of(&[(b"\0", b""), (b"\0\0", b""), (b"@[`{", b"\0")]),
    ]
}

/// The tags that fill a block: 32, with keys and values of the greatest lengths.
pub fn full() -> Map {
    let key = |number: usize| [format!("key{number:02}").as_bytes(), &[b'.'; LONGEST_KEY - 5]].concat();
    (0..TAGS).map(|number| (key(number), vec![b'a' + (number % 26) as u8; LONGEST_VALUE])).collect()
}

/// Lists at the limits and one short of them.
pub fn limit_lists() -> Vec<Map> {
    let mut list: Vec<Map> = [TAGS - 2, TAGS - 1, TAGS].map(many).to_vec();
    let long = vec![b'v'; LONGEST_VALUE];
    list.push(map_of(&[(b"a", &long)]));
    list.push(map_of(&[(&[b'k'; LONGEST_KEY], b"v")]));
    list.push(map_of(&[(b"", &long[1..]), (&[b'k'; LONGEST_KEY], &long)]));
    let mut shorter = full();
    shorter.last_entry().expect("a tag").get_mut().pop();
    let mut without = full();
    without.pop_first();
    list.extend([full(), shorter, without]);
    list
}
