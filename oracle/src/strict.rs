//! Comparisons of the strict reading with the expressions of the GFA 1 specification.

use crate::generate::Random;
use crate::model_strict::Grammar;
use crate::report::{Input, Report};
use crate::texts;

/// For each type, the bytes over which all short values are tried.
const VALUE_BYTES: [(u8, &[u8]); 9] = [
    (b'A', b"!~ a\x1f\x7f"),
    (b'i', b"+-0a9."),
    (b'f', b"+-.5eE,"),
    (b'Z', b"! ~\x1f\x7f\x80"),
    (b'J', b"{ ~\x1f\x7f\x80"),
    (b'H', b"0A9FG@a"),
    (b'B', b"cf,+.5e"),
    (b'X', b"a0"),
    (b':', b"a0"),
];

/// The parts of which random lines are made.
const LINE_PARTS: [&[u8]; 22] = [
    b"H", b"H\t", b"\t", b"\tVN:Z:1.0", b"\tab:i:-7", b"\tAB:A:x", b"\tab:f:1.5e+3", b"\tzz:f:.", b"\tJS:J:{}", b"\tHX:H:0aF", b"\tHX:H:0F",
    b"\tBB:B:c,1,2", b"\tBB:B:f,.5", b"\tBC:B:x,1", b"\tVN:i:1", b"\tS2:Z:a", b"\t2S:Z:a", b"x", b"\n", b"\xff", b":", b"\taa:Z:",
];

/// Compares `check_strict`.
pub fn check_strict(report: &mut Report, rounds: usize) {
    let grammar = Grammar::new();
    let mut check = |line: &[u8]| {
        let inputs = [("line", Input::Bytes(line))];
        let expected = grammar.check(line);
        report.list("check_strict", &inputs, expected, &[0; 0]);
        report.check("check_strict", &inputs, &expected, &graph_name::check_strict(line));
    };
    each_value(rounds, &mut check);
    each_byte(&mut check);
    each_line(rounds, &mut check);
}

/// Calls a function on lines with all short values of each type.
fn each_value(rounds: usize, call: &mut impl FnMut(&[u8])) {
    for (kind, bytes) in VALUE_BYTES {
        let longest = texts::length_within(bytes.len(), 2 * rounds);
        texts::each_text(bytes, longest, |value| call(&[b"H\tab:", &[kind][..], b":", value].concat()));
        texts::each_text(b"5+,.", 3, |value| call(&[b"H\tab:", &[kind][..], b":f,1.5e-7", value].concat()));
    }
}

/// Calls a function on lines with each byte in each place, and each two bytes as a tag.
fn each_byte(call: &mut impl FnMut(&[u8])) {
    let line = b"H\tab:Z:xy\tcd:B:f,+1.5E-7";
    for byte in 0..=255 {
        for place in 0..line.len() {
            let mut changed = line.to_vec();
            changed[place] = byte;
            call(&changed);
        }
        for kind in b"AifZJHB" {
            call(&[b"H\tab:", &[*kind][..], b":", &[byte]].concat());
            call(&[b"H\tab:", &[*kind][..], b":1", &[byte]].concat());
        }
        for second in 0..=255 {
            call(&[b"H\t", &[byte, second][..], b":A:x"].concat());
        }
    }
}

/// Calls a function on all short lines, on random ones, and on lines with many fields and a tag twice.
fn each_line(rounds: usize, call: &mut impl FnMut(&[u8])) {
    texts::each_text(b"H\ta:Z1", texts::length_within(6, rounds), &mut *call);
    let mut random = Random::new(60);
    for _ in 0..rounds {
        let count = random.below(6);
        let parts: Vec<u8> = (0..count).flat_map(|_| random.pick(&LINE_PARTS).to_vec()).collect();
        let line = if random.once_in(8) { parts } else { [b"H", parts.as_slice()].concat() };
        call(&line);
        call(&texts::damaged_text(&mut random, line));
    }
    for repeated in [0, 1, 700, 2702, 2703] {
        call(&many_tags(repeated));
    }
}

/// A line with every tag of two letters, and at the end the tag of this number again.
fn many_tags(repeated: usize) -> Vec<u8> {
    let letters: Vec<u8> = (b'A'..=b'Z').chain(b'a'..=b'z').collect();
    let tags: Vec<Vec<u8>> = letters.iter().flat_map(|&one| letters.iter().map(move |&two| vec![one, two])).collect();
    let field = |tag: &Vec<u8>| [b"\t", tag.as_slice(), b":i:1"].concat();
    let mut line = b"H".to_vec();
    tags.iter().chain(tags.get(repeated)).for_each(|tag| line.extend_from_slice(&field(tag)));
    line
}
