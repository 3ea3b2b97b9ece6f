//! Comparisons of the seven functions of a tag list: on blocks of any kind, at the limits and past them.

use crate::buffers;
use crate::encoder::{decode as decode_record, encode as encode_record, LONGEST, ZEROS};
use crate::generate::Random;
use crate::graph::{Graph, Kind, Name, KINDS};
use crate::limits;
use crate::model_tags::{decode, encode, Map, Values, EMPTY, LIST, LONGEST_KEY, LONGEST_VALUE, TAGS, THREE};
use crate::records::places;
use crate::report::Report;
use crate::tag_blocks::{block, each_block};
use crate::tag_calls::{at, contains_key, counts, get, insert, remove_in_rooms, set_graph_name};
use crate::tag_values::{key_for, limit_lists, many, map_of, value};
use crate::writing::rust_tags;

/// Compares `tags_counts`.
pub fn tags_counts(report: &mut Report, rounds: usize) {
    each_block(rounds / 2, 80, |_, block| counts(report, block));
}

/// Compares `tags_at`: within the list, about its end and far past it.
pub fn tags_at(report: &mut Report, rounds: usize) {
    at(report, &encode(&map_of(&[(b"a", b"b")])), 1 << 32);
    each_block(rounds / 8, 81, |random, block| {
        let count = decode(block).map_or(0, |map| map.len());
        places(random, count).iter().for_each(|&place| at(report, block, place));
    });
}

/// Calls a comparison on a small list with keys in several forms, on blocks of any kind with two keys, and on lists at the limits with keys at
/// the limits.
fn each_key(rounds: usize, seed: u64, mut call: impl FnMut(&mut Random, &[u8], &[u8])) {
    let mut random = Random::new(seed);
    let list = encode(&map_of(&[(b"", b"x"), (b"a", b""), (b"az", b"yz"), (b"b@[", b"\0")]));
    let keys: [&[u8]; 12] = [b"AZ", b"B", b"", b"a", b"B@[", b"A", b"\0", b"aZ", b"b`{", b"azz", b"az\x80", b"\xc1"];
    keys.iter().for_each(|key| call(&mut random, &list, key));
    each_block(rounds, seed, |random, block| {
        let map = decode(block).unwrap_or_default();
        for _ in 0..2 {
            let key = key_for(random, &map);
            call(random, block, &key);
        }
    });
    for map in limit_lists() {
        let list = encode(&map);
        limit_keys(&map).iter().for_each(|key| call(&mut random, &list, key));
    }
}

/// The first and the last key of a list that is not empty, in capitals too, keys about the greatest length, before all others and behind
/// them, and ones with a byte above 127.
fn limit_keys(map: &Map) -> Vec<Vec<u8>> {
    let mut list: Vec<Vec<u8>> = [LONGEST_KEY - 1, LONGEST_KEY, LONGEST_KEY + 1].map(|length| vec![b'k'; length]).to_vec();
    for key in [map.keys().next(), map.keys().next_back()].into_iter().flatten() {
        list.extend([key.clone(), key.to_ascii_uppercase()]);
    }
    let others: [&[u8]; 6] = [b"", b"A", b"k07", b"\x7f", b"\x80", b"k07\xff"];
    list.extend(others.map(|key| key.to_vec()));
    list
}

/// Compares `tags_get`.
pub fn tags_get(report: &mut Report, rounds: usize) {
    each_key(rounds / 4, 82, |_, list, key| get(report, list, key));
}

/// Compares `tags_contains_key`.
pub fn tags_contains_key(report: &mut Report, rounds: usize) {
    each_key(rounds / 4, 83, |_, list, key| contains_key(report, list, key));
}

/// Compares `tags_insert`: with random values, and with values about the greatest length at the limits.
pub fn tags_insert(report: &mut Report, rounds: usize) {
    each_key(rounds / 4, 84, |random, list, key| drop(insert(report, list, key, &value(random))));
    for map in limit_lists() {
        let list = encode(&map);
        for key in limit_keys(&map) {
            for length in [0, 1, LONGEST_VALUE, LONGEST_VALUE + 1] {
                insert(report, &list, &key, &vec![b'v'; length]);
            }
        }
    }
}

/// Compares `tags_remove`.
pub fn tags_remove(report: &mut Report, rounds: usize) {
    each_key(rounds / 8, 85, |_, list, key| drop(remove_in_rooms(report, list, key)));
}

/// The three values of a record, as the Rust makes them, or the refusal of it.
fn values_of(record: &[u8]) -> Result<Values, u32> {
    decode_record(record).map(|graph| rust_tags(&graph))
}

/// Compares `tags_set_graph_name`: with all ways in which the three tags come and go near the greatest number of tags, with values about the
/// greatest length, with blocks of any kind, with records at the limits, and with buffers and blocks at random.
pub fn tags_set_graph_name(report: &mut Report, rounds: usize) {
    let mut set = |list: &[u8], record: &[u8]| drop(set_graph_name(report, list, record, &values_of(record)));
    each_coming_and_going(&mut set);
    each_long_value(&mut set);
    each_wrong_input(&mut set);
    let record = encode_record(&three_tags([true; 3], LONGEST_VALUE));
    each_block(0, 86, |_, block| set(block, &record));
    for graph in limits::graphs() {
        set(&EMPTY, &encode_record(&graph));
    }
    let mut random = Random::new(87);
    for _ in 0..rounds / 2 {
        let (list, record) = (block(&mut random), buffers::buffer(&mut random));
        set(&list, &record);
    }
}

/// A list of so many tags, among them those of the three that are said to be held.
fn with_three(held: [bool; 3], count: usize) -> Map {
    let three = THREE.iter().zip(held).filter(|(_, is_held)| *is_held).map(|(key, _)| (key.as_bytes().to_vec(), b"old".to_vec()));
    let mut map: Map = three.collect();
    map.extend(many(count - map.len()));
    map
}

/// All eight ways in which each of three may be there or not.
fn ways() -> impl DoubleEndedIterator<Item = [bool; 3]> {
    (0..8).map(|number| [number & 1, number & 2, number & 4].map(|bit| bit != 0))
}

/// Calls a function on lists near the greatest number of tags that hold some of the three, and on records that give some of them.
fn each_coming_and_going(call: &mut impl FnMut(&[u8], &[u8])) {
    for count in [3, TAGS - 3, TAGS - 2, TAGS - 1, TAGS] {
        for held in ways() {
            let list = encode(&with_three(held, count));
            ways().rev().for_each(|given| call(&list, &encode_record(&small_graph(given))));
        }
    }
}

/// A graph that gives these tags: a name, a subgraph pair, a translation pair.
fn small_graph(given: [bool; 3]) -> Graph {
    let mut graph = Graph::default();
    graph.name = given[0].then(|| b"a".to_vec());
    for kind in KINDS.into_iter().filter(|&kind| given[1 + kind as usize]) {
        graph.pairs_mut(kind).insert((b"a".to_vec(), b"b".to_vec()));
    }
    graph
}

/// A graph that gives these tags, the values of its pairs of this length: fifteen pairs of four names of 256 bytes, and one with a fifth.
fn three_tags(given: [bool; 3], length: usize) -> Graph {
    let mut names: Vec<Name> = [b'p', b'q', b'r', b's'].map(|byte| vec![byte; LONGEST]).to_vec();
    let sixteen: Vec<(Name, Name)> = names.iter().flat_map(|from| names.iter().map(|to| (from.clone(), to.clone()))).collect();
    names.push(vec![b't'; length - 15 * (2 * LONGEST + 2) - LONGEST - 1]);
    let mut graph = Graph::default();
    graph.name = given[0].then(|| names[0].clone());
    for kind in KINDS.into_iter().filter(|&kind| given[1 + kind as usize]) {
        graph.pairs_mut(kind).extend(sixteen[..15].iter().cloned());
        graph.pairs_mut(kind).insert((names[3].clone(), names[4].clone()));
    }
    assert!(!given[1] || limits::tag_of(&graph, Kind::Subgraph).len() == length, "a value of another length");
    graph
}

/// Calls a function on records with values about the greatest length, and on lists that are empty, full, or hold the three.
fn each_long_value(call: &mut impl FnMut(&[u8], &[u8])) {
    for given in ways() {
        for length in [LONGEST_VALUE - 1, LONGEST_VALUE, LONGEST_VALUE + 1] {
            let record = encode_record(&three_tags(given, length));
            call(&EMPTY, &record);
            call(&encode(&with_three([true; 3], TAGS)), &record);
            call(&encode(&many(TAGS)), &record);
        }
    }
}

/// Calls a function on records and lists that are right or wrong, each with each.
fn each_wrong_input(call: &mut impl FnMut(&[u8], &[u8])) {
    let mut no_record = ZEROS.to_vec();
    no_record[0] = 1;
    let mut no_list = EMPTY.to_vec();
    no_list[LIST - 1] = 1;
    let long = encode_record(&three_tags([true; 3], LONGEST_VALUE + 1));
    let named = encode_record(&small_graph([true, false, false]));
    for record in [&ZEROS[..], &named, &long, &no_record, &ZEROS[1..], &[ZEROS.as_slice(), b"\0"].concat(), &no_record[..9], b""] {
        for list in [&EMPTY[..], &encode(&many(TAGS)), &no_list, &EMPTY[1..], &[EMPTY.as_slice(), b"\0"].concat(), &no_list[1..], b""] {
            call(list, record);
        }
    }
}
