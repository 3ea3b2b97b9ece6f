//! The whole tag list, written from docs/FORMAT.md alone: a map from keys to values, its block, the test and decoding of a block, and what the
//! seven functions are to give.

use std::collections::BTreeMap;

pub const LIST: usize = 264_452;
pub const TAGS: usize = 32;
pub const LONGEST_KEY: usize = 64;
pub const LONGEST_VALUE: usize = 8192;

/// The block of the empty list.
pub static EMPTY: [u8; LIST] = [0; LIST];

/// The keys that a record's three tags have.
pub const THREE: [&str; 3] = ["pggname", "subgraph", "translation"];

/// The tags of a list.
pub type Map = BTreeMap<Vec<u8>, Vec<u8>>;

/// A key and its value.
pub type Tag = (Vec<u8>, Vec<u8>);

/// The three values of a record, each present or absent.
pub type Values = [Option<Vec<u8>>; 3];

/// The block of these tags in this order, which need not keep the rules: the count, the two lengths of each tag, then each key and its value.
pub fn write<'a>(tags: impl Iterator<Item = (&'a Vec<u8>, &'a Vec<u8>)> + Clone) -> Vec<u8> {
    let mut block = Vec::with_capacity(LIST);
    put(&mut block, tags.clone().count());
    for (key, value) in tags.clone() {
        put(&mut block, key.len());
        put(&mut block, value.len());
    }
    for (key, value) in tags {
        block.extend_from_slice(key);
        block.extend_from_slice(value);
    }
    assert!(block.len() <= LIST, "tags that do not fit");
    block.resize(LIST, 0);
    block
}

/// The block of a map.
pub fn encode(map: &Map) -> Vec<u8> {
    write(map.iter())
}

/// Adds a number of four bytes, low byte first.
fn put(bytes: &mut Vec<u8>, number: usize) {
    bytes.extend_from_slice(&u32::try_from(number).expect("a number of four bytes").to_le_bytes());
}

/// The number of four bytes at a place.
pub fn number_at(bytes: &[u8], place: usize) -> usize {
    let four = bytes[place..place + 4].try_into().expect("four bytes");
    u32::from_le_bytes(four) as usize
}

/// Whether a byte is a capital A to Z.
fn is_capital(byte: u8) -> bool {
    (b'A'..=b'Z').contains(&byte)
}

/// Whether a key can be used: its length, and no byte above 127.
fn is_fine(key: &[u8]) -> bool {
    key.len() <= LONGEST_KEY && key.iter().all(|&byte| byte <= 127)
}

/// The map of a block, if it is a tag list: its tags one by one, each key above the one before, and zeros behind the last value.
pub fn decode(block: &[u8]) -> Option<Map> {
    if block.len() != LIST || number_at(block, 0) > TAGS {
        return None;
    }
    let count = number_at(block, 0);
    let mut map = Map::new();
    let mut at = 4 + 8 * count;
    for entry in (0..count).map(|place| 4 + 8 * place) {
        let (key_length, value_length) = (number_at(block, entry), number_at(block, entry + 4));
        if key_length > LONGEST_KEY || value_length > LONGEST_VALUE {
            return None;
        }
        let (key, rest) = block[at..].split_at(key_length);
        let ascends = map.last_key_value().is_none_or(|(last, _)| last.as_slice() < key);
        if !is_fine(key) || key.iter().any(|&byte| is_capital(byte)) || !ascends {
            return None;
        }
        map.insert(key.to_vec(), rest[..value_length].to_vec());
        at += key_length + value_length;
    }
    (block[at..] == EMPTY[at..]).then_some(map)
}

/// The map of a block, or the refusal that it gives.
fn tags_of(block: &[u8]) -> Result<Map, u32> {
    decode(block).ok_or(29)
}

/// A key made ready for use, its capitals lowered, or the refusal of it as it comes.
pub fn ready(key: &[u8]) -> Result<Vec<u8>, u32> {
    let lowered = key.iter().map(|&byte| if is_capital(byte) { byte + 32 } else { byte });
    if is_fine(key) { Ok(lowered.collect()) } else { Err(19) }
}

/// The block of a changed map, or the refusal that its sizes give: 20, then 21.
fn judged(map: &Map) -> Result<Vec<u8>, u32> {
    if map.values().any(|value| value.len() > LONGEST_VALUE) {
        Err(20)
    } else if map.len() > TAGS {
        Err(21)
    } else {
        Ok(encode(map))
    }
}

/// Where a tag of a map stands in its block: the start and length of its key, and of its value.
fn parts(map: &Map, key: &[u8], value: &[u8]) -> [u64; 4] {
    let before: usize = map.iter().take_while(|(other, _)| other.as_slice() < key).map(|(other, value)| other.len() + value.len()).sum();
    let start = 4 + 8 * map.len() + before;
    [start, key.len(), start + key.len(), value.len()].map(|number| number as u64)
}

/// What `tags_counts` gives: the number of tags.
pub fn counts(block: &[u8]) -> Result<[u64; 1], u32> {
    Ok([tags_of(block)?.len() as u64])
}

/// What `tags_at` gives: 1 and where the tag stands, or zeros past the end.
pub fn at(block: &[u8], place: u64) -> Result<[u64; 5], u32> {
    let map = tags_of(block)?;
    let tag = usize::try_from(place).ok().and_then(|place| map.iter().nth(place));
    Ok(tag.map_or([0; 5], |(key, value)| {
        let [key_start, key_length, value_start, value_length] = parts(&map, key, value);
        [1, key_start, key_length, value_start, value_length]
    }))
}

/// What `tags_get` gives: 1 and where the value stands, or zeros.
pub fn get(block: &[u8], key: &[u8]) -> Result<[u64; 3], u32> {
    let map = tags_of(block)?;
    let key = ready(key)?;
    Ok(map.get(&key).map_or([0; 3], |value| {
        let [_, _, start, length] = parts(&map, &key, value);
        [1, start, length]
    }))
}

/// What `tags_contains_key` gives: whether there is such a tag.
pub fn contains_key(block: &[u8], key: &[u8]) -> Result<[u64; 1], u32> {
    let map = tags_of(block)?;
    Ok([u64::from(map.contains_key(&ready(key)?))])
}

/// What `tags_insert` makes of a block.
pub fn insert(block: &[u8], key: &[u8], value: &[u8]) -> Result<Vec<u8>, u32> {
    let mut map = tags_of(block)?;
    map.insert(ready(key)?, value.to_vec());
    judged(&map)
}

/// What `tags_remove` makes of a block, and the value that it writes to an output of this room, if there was one.
pub fn remove(block: &[u8], key: &[u8], room: usize) -> Result<(Vec<u8>, Option<Vec<u8>>), u32> {
    let mut map = tags_of(block)?;
    let value = map.remove(&ready(key)?);
    if value.as_ref().is_some_and(|value| value.len() > room) {
        return Err(17);
    }
    Ok((encode(&map), value))
}

/// What `tags_set_graph_name` makes of a block, with the three values of the record, or with the refusal of the record.
pub fn set_graph_name(block: &[u8], values: &Result<Values, u32>) -> Result<Vec<u8>, u32> {
    let values = values.as_ref().map_err(|&number| number)?;
    let mut map = tags_of(block)?;
    for (key, value) in THREE.iter().zip(values) {
        match value {
            Some(value) => drop(map.insert(key.as_bytes().to_vec(), value.clone())),
            None => drop(map.remove(key.as_bytes())),
        }
    }
    judged(&map)
}
