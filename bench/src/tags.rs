//! The tag lists that are measured, and the calls on them, ours and those of the Rust's map of tags on the same tags: 3 and 32 tags with
//! values of 64 digits, and 32 with keys and values of the greatest lengths.

use crate::generate::Random;
use crate::model_tags::{encode, Map, LONGEST_KEY, LONGEST_VALUE, TAGS, THREE};
use crate::rust_tags::Tags;
use crate::timing::{least, timed, Times};
use graph_name as ours;

/// A list as a map and as a block, and the tag of it that is asked for, set and removed: the middle one.
pub struct TagSample {
    pub title: &'static str,
    map: Map,
    list: Vec<u8>,
    key: String,
    value: String,
}

/// The samples, from the smallest.
pub fn samples() -> Vec<TagSample> {
    let mut random = Random::new(2);
    let mut digits = |length: usize| random.bytes(length, b"0123456789abcdef");
    let three: Map = THREE.iter().map(|key| (key.as_bytes().to_vec(), digits(64))).collect();
    let mut many = three.clone();
    many.extend((0..TAGS - THREE.len()).map(|number| (format!("source-{number:02}").into_bytes(), digits(64))));
    let largest: Map = (0..TAGS).map(|_| (digits(LONGEST_KEY), digits(LONGEST_VALUE))).collect();
    [("3", three), ("32", many), ("largest", largest)].map(|(title, map)| sample(title, map)).into()
}

/// The sample of a list.
fn sample(title: &'static str, map: Map) -> TagSample {
    let (key, value) = map.iter().nth(map.len() / 2).expect("a tag");
    let text = |bytes: &Vec<u8>| String::from_utf8(bytes.clone()).expect("ASCII");
    TagSample { title, list: encode(&map), key: text(key), value: text(value), map }
}

/// The Rust's map with the tags of a list.
fn rust_map(map: &Map) -> Tags {
    let mut tags = Tags::default();
    let text = |bytes: &'_ [u8]| String::from_utf8(bytes.to_vec()).expect("ASCII");
    map.iter().for_each(|(key, value)| tags.insert(&text(key), &text(value)));
    tags
}

/// Looking up the value of a key that is there.
pub fn getting(sample: &TagSample) -> Times {
    let tags = rust_map(&sample.map);
    let [mut present, mut start, mut length] = [0; 3];
    least(
        || timed(|| ours::tags_get(&sample.list, sample.key.as_bytes(), &mut present, &mut start, &mut length)),
        || timed(|| tags.get(&sample.key)),
    )
}

/// Setting a key that is there to a value of the same length, so that the list is the same before each call. The Rust's call also frees the
/// value that was there.
pub fn setting(sample: &TagSample) -> Times {
    let (mut list, mut tags) = (sample.list.clone(), rust_map(&sample.map));
    least(
        || timed(|| ours::tags_insert(&mut list, sample.key.as_bytes(), sample.value.as_bytes())),
        || timed(|| tags.insert(&sample.key, &sample.value)),
    )
}

/// Setting a key that is not there, in a list of one tag less; it is removed again before each call, which is not timed.
pub fn adding(sample: &TagSample) -> Times {
    let (mut list, mut tags, mut out) = (sample.list.clone(), rust_map(&sample.map), vec![0; ours::MAX_VALUE_BYTES]);
    let (key, value) = (sample.key.as_bytes(), sample.value.as_bytes());
    least(
        || {
            ours::tags_remove(&mut list, key, &mut out, &mut 0, &mut 0);
            timed(|| ours::tags_insert(&mut list, key, value))
        },
        || {
            tags.remove(&sample.key);
            timed(|| tags.insert(&sample.key, &sample.value))
        },
    )
}

/// Removing a key that is there, with the value that it had; it is set again before each call, which is not timed.
pub fn removing(sample: &TagSample) -> Times {
    let (mut list, mut tags, mut out) = (sample.list.clone(), rust_map(&sample.map), vec![0; ours::MAX_VALUE_BYTES]);
    let (key, value) = (sample.key.as_bytes(), sample.value.as_bytes());
    let [mut present, mut written] = [0; 2];
    least(
        || {
            ours::tags_insert(&mut list, key, value);
            timed(|| ours::tags_remove(&mut list, key, &mut out, &mut present, &mut written))
        },
        || {
            tags.insert(&sample.key, &sample.value);
            timed(|| tags.remove(&sample.key))
        },
    )
}

/// The test of a list, in nanoseconds: `tags_counts` does little else.
pub fn list_test(sample: &TagSample) -> f64 {
    let mut tags = 0;
    least(|| timed(|| ours::tags_counts(&sample.list, &mut tags)), || timed(|| ())).ours
}
