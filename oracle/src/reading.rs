//! Comparisons of the two readings and of the message writer. What is expected comes from `model_reading`, which `self_check` compares
//! with the Rust on the same texts.

use crate::encoder::{encode, RECORD, ZEROS};
use crate::generate::{self, Random};
use crate::graph::{Graph, Kind};
use crate::limits;
use crate::model_reading::{message, read_header, read_tags, Refusal, TagValues};
use crate::outputs::{compare_texts, each_room, text_outcome, unwritten, UNWRITTEN};
use crate::report::{Hex, Input, Inputs, Report};
use crate::texts::{self, WIDE};

/// Bytes that reach every branch of the reading of header lines.
const HEADER_BYTES: &[u8] = b"H@RNSGTLZM:,\t\na";

/// Beginnings after which all short texts are tried, since no short text reaches what follows them.
const BEGINNINGS: [&[u8]; 9] =
    [b"H\t", b"H\tNM:Z:", b"H\tSG:Z:", b"H\tTL:Z:", b"@RN", b"@SG\t", b"@TL\t", b"H\tSG:", b"H\tSG:Z:a,b\n"];

/// Bytes for the texts after those beginnings.
const FURTHER_BYTES: &[u8] = b"\t\n:,Zab";

/// The header texts of the examples of docs/FORMAT.md, and others of a special kind.
const EXAMPLES: [&[u8]; 26] = [
    b"H\tNM:Z:", b"@RN\t", b"@RN", b"H\t", b"H\tSG:i:7", b"H\tSG:Z:a,b,c", b"@SG\ta,b\tc",
    b"H\tVN:Z:1.1\tNM:Z:b2\n@SG\tb2\tb1\nH\tTL:Z:b1,a\n", b"", b"\n", b"\n\n", b"\tx", b"H\tNM:Z:a\r\n", b"H\tVN:Z", b"H\tVN:Z:\tSG", b"@RN\ta\tb", b"@SG\ta\t", b"@SG\t\tb", b"@TL\ta",
    b"H\tNM:Z:a\tNM:Z:b", b"@RNx\ta", b"\xff\t\xff", b"@RN\ta\nH", b"@RN\ta\nG\tb", b"H\tVN:Z:1\tx", b"@RN\ta\n@SG\tx",
];

/// Calls a function on header texts: the examples, all short ones, random ones and damaged ones, and ones with lines of 400 fields.
pub fn each_header_text(rounds: usize, mut call: impl FnMut(&[u8])) {
    EXAMPLES.into_iter().for_each(&mut call);
    texts::each_text(HEADER_BYTES, texts::length_within(HEADER_BYTES.len(), 10 * rounds), &mut call);
    for beginning in BEGINNINGS {
        let longest = texts::length_within(FURTHER_BYTES.len(), rounds / 2);
        texts::each_text(FURTHER_BYTES, longest, |text| call(&[beginning, text].concat()));
    }
    let mut random = Random::new(20);
    for _ in 0..rounds {
        let lines = texts::header_lines(&mut random);
        call(&texts::header_parts(&mut random));
        call(&texts::damaged_text(&mut random, lines.clone()));
        call(&lines);
    }
    let mut random = Random::new(23);
    for round in 0..rounds / 2 {
        call(&texts::faulty_text(&mut random));
        if round % 16 == 0 {
            call(&limits::passing_lines(&mut random));
        }
    }
}

/// Calls a function on header texts at the limits, some with a line of 400 fields behind, and on texts with more lines, fields or bytes than
/// two bytes can count.
pub fn each_limit_text(mut call: impl FnMut(&[u8])) {
    for graph in limits::graphs() {
        for gfa in [false, true] {
            let text = limits::text_of(&graph, gfa);
            let step = if text.len() > 30000 { 5 } else { 1 };
            for line in limits::further_lines().iter().step_by(step) {
                call(&[text.as_slice(), line].concat());
            }
        }
    }
    let lines = b"@CO\tx\n".repeat(70000);
    let fields = b"\tXX:i:1".repeat(70000);
    for end in [&b"H\tSG:Z:a"[..], b"@RN\tname", b"x", b"@RN\ta\tb"] {
        call(&[lines.as_slice(), end].concat());
        call(&[b"H", fields.as_slice(), b"\tSG:Z:a,b\n", end].concat());
    }
    call(&[b"H", fields.as_slice(), b"\tx"].concat());
    each_wide_limit_text(call);
}

/// Calls a function on header texts at the limits that end in a line of 400 fields. One of these is new, and passes the limit of many graphs.
fn each_wide_limit_text(mut call: impl FnMut(&[u8])) {
    let mut random = Random::new(24);
    for graph in limits::graphs() {
        let text = limits::text_of(&graph, true);
        for field in [&b"NM:Z:n"[..], b"SG:Z:a,b", b"TL:Z:b,a"] {
            for place in [0, 1 + random.below(WIDE - 2), WIDE - 1] {
                call(&[text.as_slice(), &limits::wide_line(&graph, field, place)].concat());
            }
        }
    }
}

/// The outcome of a reading into a buffer of this length: the result, and then the numbers (line, start, length, offset) and the buffer.
fn expected(reading: Result<Graph, Refusal>, length: usize) -> (u32, ([u64; 4], Vec<u8>)) {
    if length != RECORD {
        return (15, ([0; 4], unwritten(length)));
    }
    match reading {
        Ok(graph) => (0, ([0; 4], encode(&graph))),
        Err(refusal) => {
            (refusal.number, ([refusal.line, refusal.start, refusal.length, refusal.offset], ZEROS.to_vec()))
        }
    }
}

/// Compares a reading into a buffer of this length.
fn compare(
    report: &mut Report, entry: &'static str, inputs: &Inputs, reading: Result<Graph, Refusal>, length: usize,
    call: impl Fn(&mut [u8], &mut u64, &mut u64, &mut u64, &mut u64) -> u32,
) {
    let mut record = unwritten(length);
    let [mut line, mut start, mut part, mut offset] = [UNWRITTEN; 4];
    let number = call(&mut record, &mut line, &mut start, &mut part, &mut offset);
    let (expected, (numbers, buffer)) = expected(reading, length);
    report.compare(entry, inputs, (expected, (numbers, Hex(&buffer))), (number, ([line, start, part, offset], Hex(&record))));
}

/// Compares `from_header_lines`.
pub fn from_header_lines(report: &mut Report, rounds: usize) {
    each_header_text(rounds, |text| header(report, text, RECORD));
    each_limit_text(|text| header(report, text, RECORD));
    for length in [0, 1, RECORD - 1, RECORD + 1] {
        EXAMPLES.iter().for_each(|text| header(report, text, length));
    }
}

/// Compares the reading of one header text.
fn header(report: &mut Report, text: &[u8], length: usize) {
    let inputs = [("text", Input::Bytes(text)), ("buffer's length", Input::Number(length as u64))];
    compare(report, "from_header_lines", &inputs, read_header(text), length, |record, line, start, part, offset| {
        graph_name::from_header_lines(text, record, line, start, part, offset)
    });
}

/// Bytes that reach every branch of the reading of tags.
const TAG_BYTES: &[u8] = b"a,;b";

/// Calls a function on tag values: all short ones in each tag, random ones, and ones with a fault in either tag or a long own name.
pub fn each_tags(rounds: usize, mut call: impl FnMut(TagValues)) {
    texts::each_text(TAG_BYTES, texts::length_within(TAG_BYTES.len(), rounds), |value| {
        call(TagValues { name: None, subgraph: Some(value), translation: None });
        call(TagValues { name: Some(b"a"), subgraph: None, translation: Some(value) });
        call(TagValues { name: Some(value), subgraph: Some(b"a,b;a,b"), translation: Some(b"b,a") });
    });
    let mut random = Random::new(21);
    for _ in 0..rounds {
        let (name, subgraph, translation) =
            (texts::tag_value(&mut random), texts::tag_value(&mut random), texts::tag_value(&mut random));
        let mut present = |value| if random.once_in(4) { None } else { Some(value) };
        call(TagValues { name: present(&name[..]), subgraph: present(&subgraph), translation: present(&translation) });
    }
    let mut random = Random::new(25);
    for _ in 0..rounds / 8 {
        let (name, value) = (texts::long_name(&mut random), texts::faulty_tag(&mut random));
        call(TagValues { name: Some(b"a"), subgraph: Some(&value), translation: Some(b"a,b;") });
        call(TagValues { name: None, subgraph: Some(b"a,b;b,cd"), translation: Some(&value) });
        call(TagValues { name: Some(&name), subgraph: Some(&value), translation: None });
    }
}

/// Calls a function on tag values at the limits, and on such with a relation past them that others follow.
pub fn each_limit_tags(mut call: impl FnMut(TagValues)) {
    for graph in limits::graphs() {
        let (subgraph, translation) = (limits::tag_of(&graph, Kind::Subgraph), limits::tag_of(&graph, Kind::Translation));
        for value in [&subgraph, &translation] {
            let followed = [value.as_slice(), b";a,b;", value].concat();
            call(TagValues { name: None, subgraph: Some(&followed), translation: None });
            call(TagValues { name: None, subgraph: None, translation: Some(&followed) });
            call(TagValues { name: graph.name.as_deref(), subgraph: Some(value), translation: Some(b"a,b;b,c") });
        }
        for name in limits::names() {
            let more = [subgraph.as_slice(), b";a,", &name].concat();
            for subgraph in [&subgraph, &more] {
                call(TagValues { name: Some(&name), subgraph: Some(subgraph), translation: Some(&translation) });
                call(TagValues { name: graph.name.as_deref(), subgraph: Some(&translation), translation: Some(subgraph) });
            }
        }
    }
}

/// Compares `from_tags`.
pub fn from_tags(report: &mut Report, rounds: usize) {
    each_tags(rounds, |values| tags(report, values, RECORD, 1));
    each_limit_tags(|values| tags(report, values, RECORD, 1));
    each_tags(8, |values| {
        for flag in [1, 2, 0x100, 0x8000_0000, u32::MAX] {
            tags(report, values, RECORD, flag);
        }
        for length in [0, 1, RECORD - 1, RECORD + 1] {
            tags(report, values, length, 1);
        }
    });
}

/// Compares the reading of three tag values, with this flag for a present one and a value that is not looked at for an absent one.
fn tags(report: &mut Report, values: TagValues, length: usize, flag: u32) {
    let pass = |value: Option<&'_ [u8]>| if value.is_some() { flag } else { 0 };
    let unread: &[u8] = b"unread;";
    let (name, subgraph, translation) =
        (values.name.unwrap_or(unread), values.subgraph.unwrap_or(unread), values.translation.unwrap_or(unread));
    let flags = [pass(values.name), pass(values.subgraph), pass(values.translation)];
    let inputs = [
        ("has_name", Input::Number(flags[0].into())), ("name", Input::Bytes(name)),
        ("has_subgraph", Input::Number(flags[1].into())), ("subgraph", Input::Bytes(subgraph)),
        ("has_translation", Input::Number(flags[2].into())), ("translation", Input::Bytes(translation)),
        ("buffer's length", Input::Number(length as u64)),
    ];
    compare(report, "from_tags", &inputs, read_tags(values), length, |record, line, start, part, offset| {
        graph_name::from_tags(flags[0], name, flags[1], subgraph, flags[2], translation, record, line, start, part, offset)
    });
}

/// Line numbers for messages.
const LINES: [u64; 9] = [0, 1, 9, 10, 99, 100, 65536, 12_345_678_901_234_567_890, u64::MAX];

/// Compares `error_message`: for all numbers, and for the refusals of header texts and of tags.
pub fn error_message(report: &mut Report, rounds: usize) {
    let mut random = Random::new(22);
    for number in (0..40).chain([255, 256, 65536 + 3, 1 << 31, u32::MAX]) {
        for line in LINES {
            let part = generate::name(&mut random);
            each_room(message(number, line, &part).len(), |room| one_message(report, number, line, &part, room));
        }
    }
    for _ in 0..rounds / 4 {
        let lines = texts::header_lines(&mut random);
        let text = texts::damaged_text(&mut random, lines);
        if let Err(refusal) = read_header(&text) {
            let part = &text[refusal.start as usize..(refusal.start + refusal.length) as usize];
            let length = message(refusal.number, refusal.line, part).len();
            each_room(length, |room| one_message(report, refusal.number, refusal.line, part, room));
        }
    }
}

/// Compares one message in an output of this room.
fn one_message(report: &mut Report, number: u32, line: u64, part: &[u8], room: usize) {
    let mut out = unwritten(room);
    let mut written = UNWRITTEN;
    let result = graph_name::error_message(number, line, part, &mut out, &mut written);
    let inputs = [
        ("number", Input::Number(number.into())), ("line", Input::Number(line)), ("part", Input::Bytes(part)),
        ("room", Input::Number(room as u64)),
    ];
    let outcome = text_outcome(&Ok(message(number, line, part)), room);
    compare_texts(report, "error_message", &inputs, &outcome, &(result, out, written));
}
