//! Texts to read: header texts and tag values of random parts, damaged ones, ones with a fault far behind their start, and all short texts
//! over an alphabet.

use crate::encoder::LONGEST;
use crate::generate::Random;
use crate::graph::Name;

/// The parts of which random header texts are made.
const HEADER_PARTS: [&[u8]; 36] = [
    b"H", b"H\t", b"H\tNM:Z:", b"H\tSG:Z:", b"H\tTL:Z:", b"\tNM:Z:", b"\tSG:Z:", b"\tTL:Z:", b"\tSG:i:7", b"\tTL:A:x", b"\tVN:Z:1.1",
    b"\tNM:H:", b"@RN\t", b"@SG\t", b"@TL\t", b"@CO\t", b"@RN", b"@SG", b"@TL", b"@HD", b"a", b"b", b"ab", b"c,d", b"a,b", b",", b";", b":",
    b"\t", b"\t", b"\n", b"\n", b"\n", b"\r", b"Z", b"@",
];

/// A header text of random parts.
pub fn header_parts(random: &mut Random) -> Vec<u8> {
    let count = random.below(12);
    (0..count).flat_map(|_| random.pick(&HEADER_PARTS).to_vec()).collect()
}

/// A header text of lines that are mostly right.
pub fn header_lines(random: &mut Random) -> Vec<u8> {
    let mut text = Vec::new();
    for _ in 0..random.below(6) {
        text.extend_from_slice(&header_line(random));
        text.push(b'\n');
    }
    if random.once_in(3) {
        text.pop();
    }
    text
}

/// A name that is text: letters, characters of two to four bytes, or digits.
fn text_name(random: &mut Random) -> Name {
    let length = 1 + random.below(3);
    let characters: [&str; 6] = ["a", "b", "é", "ÿ", "漢", "🌱"];
    match random.below(12) {
        0 => Vec::new(),
        1..=2 => (0..length).flat_map(|_| random.pick(&characters).bytes().collect::<Vec<u8>>()).collect(),
        3 => random.bytes(64, b"0123456789abcdef"),
        4 if random.once_in(8) => random.bytes(LONGEST + length - 2, b"ab"),
        _ => random.bytes(length, b"abc"),
    }
}

/// A header line that is mostly right, without a line end.
fn header_line(random: &mut Random) -> Vec<u8> {
    let (one, two) = (text_name(random), text_name(random));
    match random.below(7) {
        0 => [b"@RN\t", one.as_slice()].concat(),
        1 => [b"@SG\t", one.as_slice(), b"\t", &two].concat(),
        2 => [b"@TL\t", one.as_slice(), b"\t", &two].concat(),
        3 => [b"@CO\t", one.as_slice()].concat(),
        _ => h_line(random),
    }
}

/// An `H` line of a few fields.
fn h_line(random: &mut Random) -> Vec<u8> {
    let mut line = b"H".to_vec();
    for _ in 0..1 + random.below(4) {
        let (one, two) = (text_name(random), text_name(random));
        let tag = *random.pick(&["VN", "NM", "SG", "TL", "SG", "TL"]);
        let kind = if random.once_in(8) { "i" } else { "Z" };
        line.extend_from_slice(format!("\t{tag}:{kind}:").as_bytes());
        line.extend_from_slice(&one);
        if tag == "SG" || tag == "TL" {
            line.push(b',');
            line.extend_from_slice(&two);
        }
    }
    line
}

/// A text with one byte taken out, doubled or changed, or cut short.
pub fn damaged_text(random: &mut Random, mut text: Vec<u8>) -> Vec<u8> {
    if text.is_empty() {
        return text;
    }
    let place = random.below(text.len());
    match random.below(4) {
        0 => drop(text.remove(place)),
        1 => text.insert(place, text[place]),
        2 => text[place] = *random.pick(b"H@RNSGTLZM:,;\t\na\0\x80\xff"),
        _ => text.truncate(place),
    }
    text
}

/// The value of a relation tag of random parts.
pub fn tag_value(random: &mut Random) -> Vec<u8> {
    let mut value = Vec::new();
    for _ in 0..random.below(5) {
        value.extend_from_slice(&[text_name(random), b",".to_vec(), text_name(random), b";".to_vec()].concat());
    }
    if !random.once_in(4) {
        value.pop();
    }
    if random.once_in(4) { damaged_text(random, value) } else { value }
}

/// How many fields follow the first on a wide line, and how many relations a wide tag value has.
pub const WIDE: usize = 400;

/// Typed fields that are right: passed over, own names, and relations over few names.
const RIGHT_FIELDS: [&[u8]; 12] = [
    b"VN:Z:1.1", b"XX:i:1", b"SG:i:7", b"TL:A:x", b"XX:Z:a,b,c", b"NM:H:", b"NM:Z:", b"NM:Z:a", b"SG:Z:a,b", b"SG:Z:b,cd", b"TL:Z:b,a",
    b"TL:Z:\xc3\xa9,a",
];

/// Typed fields that are refused: with 3, 4 and 5.
const FAULTY_FIELDS: [&[u8]; 14] = [
    b"", b"x", b"VN:Z", b"SGxZ:a,b", b"SG:Zxa,b", b"SG:Z:", b"SG:Z:a", b"SG:Z:a,", b"SG:Z:,b", b"SG:Z:a,b,c", b"TL:Z:", b"TL:Z:ab",
    b"TL:Z:,", b"TL:Z:a,,b",
];

/// Lines that are right.
const RIGHT_LINES: [&[u8]; 6] =
    [b"@CO\tx", b"@RN\ta", b"@SG\ta\tb", b"@TL\tb\tcd", b"H\tVN:Z:1.1\tNM:Z:b", b"H\tSG:Z:b,a\tXX:i:1\tTL:Z:a,b"];

/// Lines that are refused: with 1, 2, 6, 7 and 8.
const FAULTY_LINES: [&[u8]; 14] = [
    b"", b"H", b"@RN", b"x", b"a line without a tab", b"\tx", b"x\ty", b"@RNx\ta", b"@RN\t", b"@RN\ta\tb", b"@SG\ta", b"@SG\t\tb",
    b"@TL\ta\t", b"@TL\ta\tb\tc",
];

/// Relations of a tag that are refused.
const FAULTY_RELATIONS: [&[u8]; 6] = [b"", b"a", b",", b"a,", b",b", b"a,b,c"];

/// A place among so many: the first, the last, or any.
fn place(random: &mut Random, count: usize) -> usize {
    match random.below(3) {
        0 => 0,
        1 => count - 1,
        _ => random.below(count),
    }
}

/// How many faults a wide text gets: mostly one.
fn faults(random: &mut Random) -> usize {
    if random.once_in(4) { 2 } else { 1 }
}

/// A name as long as a name may be, or one or two bytes longer.
pub fn long_name(random: &mut Random) -> Name {
    let length = LONGEST + random.below(3);
    random.bytes(length, b"ab")
}

/// A typed field with a long name.
fn long_field(random: &mut Random) -> Vec<u8> {
    let (one, two) = (long_name(random), long_name(random));
    match random.below(4) {
        0 => [b"NM:Z:", one.as_slice()].concat(),
        1 => [b"SG:Z:a,", one.as_slice()].concat(),
        2 => [b"TL:Z:", one.as_slice(), b",a"].concat(),
        _ => [b"SG:Z:", one.as_slice(), b",", &two].concat(),
    }
}

/// An `H` line of 400 typed fields, of which one or two are faulty or have a long name.
fn wide_line(random: &mut Random) -> Vec<u8> {
    let mut fields: Vec<Vec<u8>> = (0..WIDE).map(|_| random.pick(&RIGHT_FIELDS).to_vec()).collect();
    for _ in 0..faults(random) {
        let place = place(random, WIDE);
        fields[place] = if random.once_in(2) { long_field(random) } else { random.pick(&FAULTY_FIELDS).to_vec() };
    }
    [b"H\t", fields.join(&b'\t').as_slice()].concat()
}

/// An `@` line with long names: its second field, its third, or both.
fn long_line(random: &mut Random) -> Vec<u8> {
    let (one, two) = (long_name(random), long_name(random));
    let first: &[u8] = if random.once_in(2) { b"@SG\t" } else { b"@TL\t" };
    match random.below(4) {
        0 => [b"@RN\t", one.as_slice()].concat(),
        1 => [first, &one, b"\tb"].concat(),
        2 => [first, b"a\t", &two].concat(),
        _ => [first, &one, b"\t", &two].concat(),
    }
}

/// A header text with a fault: up to five lines that are right, often none, then one with a fault, and up to two others.
pub fn faulty_text(random: &mut Random) -> Vec<u8> {
    let right = if random.once_in(2) { 0 } else { random.below(6) };
    let mut lines: Vec<Vec<u8>> = (0..right).map(|_| random.pick(&RIGHT_LINES).to_vec()).collect();
    lines.push(match random.below(4) {
        0 => random.pick(&FAULTY_LINES).to_vec(),
        1 => long_line(random),
        _ => wide_line(random),
    });
    lines.extend((0..random.below(3)).map(|_| header_line(random)));
    lines.join(&b'\n')
}

/// The value of a relation tag with a fault: few or 400 relations, of which one or two are faulty or have a long name.
pub fn faulty_tag(random: &mut Random) -> Vec<u8> {
    let count = if random.once_in(2) { WIDE } else { 1 + random.below(8) };
    let mut relations: Vec<Vec<u8>> = (0..count).map(|_| random.pick(&[&b"a,b"[..], b"b,cd", b"\xc3\xa9,a"]).to_vec()).collect();
    for _ in 0..faults(random) {
        let (place, long) = (place(random, count), long_name(random));
        relations[place] = match random.below(4) {
            0 => [b"a,", long.as_slice()].concat(),
            1 => [long.as_slice(), b",a"].concat(),
            _ => random.pick(&FAULTY_RELATIONS).to_vec(),
        };
    }
    relations.join(&b';')
}

/// Calls a function on every text over an alphabet up to a length, shorter ones first.
pub fn each_text(alphabet: &[u8], longest: usize, mut call: impl FnMut(&[u8])) {
    for length in 0..=longest {
        let mut digits = vec![0; length];
        loop {
            let text: Vec<u8> = digits.iter().map(|&digit: &usize| alphabet[digit]).collect();
            call(&text);
            let Some(place) = digits.iter().rposition(|&digit| digit + 1 < alphabet.len()) else { break };
            digits[place] += 1;
            digits[place + 1..].fill(0);
        }
    }
}

/// The greatest length at which the texts over an alphabet of this size are at most this many.
pub fn length_within(alphabet: usize, most: usize) -> usize {
    (0..).take_while(|&length| alphabet.pow(length) <= most).last().map_or(0, |length| length as usize)
}
