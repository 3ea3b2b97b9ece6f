//! The fixed list: a sample of the oracle's answers in a file, which the program `replay` (crates/replay) replays with no Rust at hand.
//!
//! What is kept of the comparisons: for each entry, result and first number that comes out (of tags the offset, since their line is always 0)
//! some small ones, at growing distances; of the large ones the smallest that is refused by each size, and then, as far as the file has room,
//! the smallest for each set of limits that a record reaches. Of tag lists the smallest for each limit of the list, the key and the value that
//! it is at or one past, unless that is long too.

use crate::encoder::RECORD;
use crate::list_limits::{limits_of, tag_limit_of};
use crate::listed::Listed;
use crate::model_tags::LIST;
use crate::outputs::{unwritten, UNWRITTEN};
use crate::report::{Input, Inputs};
use std::collections::{BTreeMap, BTreeSet};
use std::fmt::Write;

/// What the head of the file says, after the line on how it was made.
const HEAD: &str = "\
# The answers are those that the oracle expects, from the Rust and from its models of docs/FORMAT.md, not those that the library gave.
# The program replay (crates/replay) makes the calls and compares all that comes out; it has this file as its standard input.
#
# A line that begins with one of these names sets a byte string, which stays until it is set again:
#   record other one two three       what a call reads
#   out out_two out_three            what its outputs, or the record that it changes, hold before it
#   want want_two want_three         what they are to hold after it, past what is written too
#   tags                             the tag list that a call reads, or that it changes, before it
#   want_tags                        what the tag list that it changes is to hold after it
# Bytes: two hexadecimal digits; \"printable ones\"; t is a tab and n the end of a line; *N. is the byte before it, N times in all;
# =NAME are the bytes that are set under that name.
# A line that begins with the name of an entry, graph_name_ left out, is a call: the name, the result, the numbers that come out, those
# that go in, in the order of the function's parameters; - is a number that is not written. A line that begins with ! is wrong on purpose:
# replay is to notice it.
";

/// The names of the byte strings, in the order in which a case sets them.
const HOLDERS: [&str; 13] = [
    "record", "other", "one", "two", "three", "out", "out_two", "out_three", "want", "want_two", "want_three", "tags", "want_tags",
];

/// The places of the record that is read, of a key, of a value, of the first output, of what the first and the last output are to hold, and
/// of a tag list before and after.
const RECORD_AT: usize = 0;
const KEY_AT: usize = 2;
const VALUE_AT: usize = 3;
const OUT_AT: usize = 5;
const WANT_AT: usize = 8;
const WANT_LAST_AT: usize = 10;
const TAGS_AT: usize = 11;
const WANT_TAGS_AT: usize = 12;

/// How many bytes a byte string of the program `replay` can have, and how many a tag list: one more than it should.
const ROOM: usize = 47616;
const TAGS_ROOM: usize = LIST + 1;

/// A case of at most so many characters is small.
const SMALL: usize = 700;

/// How many small cases are kept of one sort, and how many if it is one of tag lists.
const SMALL_KEPT: usize = 4;
const SMALL_TAGS_KEPT: usize = 7;

/// A case of a tag list at a limit is kept if it has at most so many characters.
const TAGS_KEPT: usize = 2000;

/// How long the file may become, if each byte string is written once, without the tag lists.
const LONGEST_LIST: usize = 240_000;

/// The bytes that a case sets, each with its place among the names.
type Setting = BTreeMap<usize, Vec<u8>>;

/// One call: what is set for it, its entry and the numbers of its line: the result, so many that come out, and those that go in.
#[derive(Clone, PartialEq, Eq)]
struct Case {
    entry: &'static str,
    setting: Setting,
    numbers: Vec<u64>,
    coming_out: usize,
    cost: usize,
}

/// The place of an input among the names, and its bytes; none for a number that goes in as it is.
fn placed(entry: &str, label: &str, input: &Input) -> Option<(usize, Vec<u8>)> {
    let changes = entry.starts_with("add_") || entry.starts_with("make_");
    match (label, input) {
        ("record", Input::Bytes(bytes)) => Some((if changes { OUT_AT } else { RECORD_AT }, bytes.to_vec())),
        ("other", Input::Bytes(bytes)) => Some((1, bytes.to_vec())),
        ("list", Input::Bytes(bytes)) => Some((TAGS_AT, bytes.to_vec())),
        ("to" | "subgraph" | "other_desc" | "value", Input::Bytes(bytes)) => Some((VALUE_AT, bytes.to_vec())),
        ("translation", Input::Bytes(bytes)) => Some((4, bytes.to_vec())),
        (_, Input::Bytes(bytes)) => Some((KEY_AT, bytes.to_vec())),
        ("room" | "buffer's length" | "room for the name", Input::Number(length)) => Some((OUT_AT, unwritten(*length as usize))),
        ("room for subgraphs", Input::Number(length)) => Some((OUT_AT + 1, unwritten(*length as usize))),
        ("room for translations", Input::Number(length)) => Some((OUT_AT + 2, unwritten(*length as usize))),
        (_, Input::Number(_)) => None,
    }
}

/// Writes a byte outside quotes.
fn put_byte(text: &mut String, byte: u8) {
    match byte {
        b'\t' => text.push('t'),
        b'\n' => text.push('n'),
        _ => write!(text, "{byte:02x}").expect("a string"),
    }
}

/// Whether a byte can stand between quotes.
fn is_printable(byte: u8) -> bool {
    (b' '..=b'~').contains(&byte) && byte != b'"'
}

/// The length of the run of one byte at the start.
fn run(bytes: &[u8]) -> usize {
    bytes.iter().take_while(|&&byte| byte == bytes[0]).count()
}

/// Bytes as the file has them.
fn written(bytes: &[u8]) -> String {
    let mut text = String::new();
    let mut at = 0;
    while at < bytes.len() {
        let rest = &bytes[at..];
        let quoted = (0..rest.len()).take_while(|&place| is_printable(rest[place]) && run(&rest[place..]) < 8).count();
        let repeated = run(rest);
        if repeated >= 8 {
            put_byte(&mut text, rest[0]);
            write!(text, "*{repeated}.").expect("a string");
            at += repeated;
        } else if quoted >= 2 {
            write!(text, "\"{}\"", String::from_utf8_lossy(&rest[..quoted])).expect("a string");
            at += quoted;
        } else {
            put_byte(&mut text, rest[0]);
            at += 1;
        }
    }
    text
}

/// The place of what an output or a tag list, whose wanted bytes are at a place, holds before the call.
fn before(place: usize) -> Option<usize> {
    match place {
        WANT_AT..=WANT_LAST_AT => Some(OUT_AT + place - WANT_AT),
        WANT_TAGS_AT => Some(TAGS_AT),
        _ => None,
    }
}

/// The bytes at a place as the file has them: what an output is to hold, if it is to stay, by the output's name.
fn shown(setting: &Setting, place: usize) -> String {
    let before = before(place).filter(|before| setting.get(before) == setting.get(&place));
    match before {
        Some(before) if !setting[&place].is_empty() => format!("={}", HOLDERS[before]),
        _ => written(&setting[&place]),
    }
}

impl Case {
    /// The case of a comparison, unless it is too long for the program.
    fn new(entry: &'static str, inputs: &Inputs, result: u64, expected: &dyn Listed) -> Option<Case> {
        let mut setting: Setting = inputs.iter().filter_map(|(label, input)| placed(entry, label, input)).collect();
        setting.extend(expected.outputs().iter().enumerate().map(|(place, bytes)| (WANT_AT + place, bytes.to_vec())));
        setting.extend(expected.tags().map(|bytes| (WANT_TAGS_AT, bytes.to_vec())));
        if setting.iter().any(|(&place, bytes)| bytes.len() > if place < TAGS_AT { ROOM } else { TAGS_ROOM }) {
            return None;
        }
        let numbers = expected.numbers();
        let given = inputs.iter().filter_map(|(label, input)| match input {
            Input::Number(number) if placed(entry, label, input).is_none() => Some(*number),
            _ => None,
        });
        let coming_out = numbers.len();
        let numbers = [result].into_iter().chain(numbers).chain(given).collect();
        let cost = setting.keys().map(|&place| shown(&setting, place).len()).sum();
        Some(Case { entry, setting, numbers, coming_out, cost })
    }

    /// Whether the case is about a tag list.
    fn is_of_tags(&self) -> bool {
        self.setting.contains_key(&TAGS_AT)
    }

    /// The limit of the tag list that the case is about, or the limits of the record: of the one that comes out, else of the one that goes in.
    fn limits(&self) -> usize {
        if self.is_of_tags() {
            let held = |place: usize| self.setting.get(&place).map_or(b"".as_slice(), |bytes| bytes);
            return tag_limit_of(held(TAGS_AT), held(WANT_TAGS_AT), held(KEY_AT).len(), held(VALUE_AT).len());
        }
        let record = [WANT_AT, RECORD_AT, OUT_AT].iter().filter_map(|place| self.setting.get(place)).find(|bytes| bytes.len() == RECORD);
        record.map_or(0, |bytes| limits_of(bytes))
    }

    /// The byte string that takes most room in the file.
    fn largest(&self) -> Option<&Vec<u8>> {
        self.setting.values().max_by_key(|bytes| written(bytes).len())
    }

    /// The line of the call.
    fn line(&self) -> String {
        let shown = |number: &u64| if *number == UNWRITTEN { "-".to_string() } else { number.to_string() };
        let numbers: Vec<String> = self.numbers.iter().map(shown).collect();
        format!("{} {}\n", self.entry, numbers.join(" "))
    }

    /// The case with another answer: another result, another one of the numbers that come out, or another byte in an output or in the tag
    /// list; as far as there are such.
    fn wrong(&self) -> Vec<Case> {
        let changed = |place: usize| {
            let mut other = self.clone();
            other.numbers[place] += 1;
            other
        };
        let mut list: Vec<Case> = (0..=self.coming_out).map(changed).collect();
        for place in [WANT_AT, WANT_TAGS_AT] {
            let mut other = self.clone();
            if let Some(last) = other.setting.get_mut(&place).and_then(|bytes| bytes.last_mut()) {
                *last ^= 1;
                list.push(other);
            }
        }
        list
    }
}

/// A sort of small comparisons: the entry, the result, and the first number that comes out, cut at 2; of tags the offset, cut so too; of a
/// message its number.
type Sort = (&'static str, u64, u64);

/// The comparisons that are kept; the large ones by entry, result, of tag lists the first number that comes out, and limits.
#[derive(Default)]
pub struct Sample {
    seen: BTreeMap<Sort, usize>,
    small: BTreeMap<Sort, Vec<Case>>,
    large: BTreeMap<(&'static str, u64, u64, usize), Case>,
}

impl Sample {
    /// Takes a comparison of a call, if it is one to keep.
    pub fn offer(&mut self, entry: &'static str, inputs: &Inputs, result: u64, expected: &dyn Listed) {
        let Some(case) = Case::new(entry, inputs, result, expected) else {
            return;
        };
        let told = match entry {
            "error_message" => case.numbers[2].min(11),
            "from_tags" => case.numbers[4].min(2),
            _ => case.numbers.get(1).map_or(0, |&number| number.min(2)),
        };
        if case.cost > SMALL || case.is_of_tags() && case.limits() != 0 {
            let key = (entry, result, if case.is_of_tags() { told } else { 0 }, case.limits());
            if self.large.get(&key).is_none_or(|kept| case.cost < kept.cost) {
                self.large.insert(key, case);
            }
            return;
        }
        let key = (entry, result, told);
        let seen = self.seen.entry(key).or_default();
        *seen += 1;
        let kept = self.small.entry(key).or_default();
        let is_further = if case.is_of_tags() { kept.len() < SMALL_TAGS_KEPT && !kept.contains(&case) } else { kept.len() < SMALL_KEPT };
        if is_further && seen.is_power_of_two() {
            kept.push(case);
        }
    }

    /// The large comparisons to write within so many characters, those on one record together.
    fn large_kept(&self, room: usize) -> Vec<&Case> {
        let by_size = |case: &Case| (11..=14).contains(&case.numbers[0]);
        let of_records = self.large.values().filter(|case| !case.is_of_tags());
        let mut list: Vec<&Case> = of_records.filter(|case| by_size(case) || case.numbers[0] == 0 && case.limits() != 0).collect();
        list.sort_by_key(|case| case.cost);
        let mut refused = BTreeSet::new();
        let is_first: Vec<bool> = list.iter().map(|case| by_size(case) && refused.insert((case.entry, case.numbers[0]))).collect();
        let (first, rest): (Vec<_>, Vec<_>) = list.into_iter().zip(is_first).partition(|(_, is_first)| *is_first);
        let (mut cost, mut seen, mut kept) = (0, BTreeSet::new(), Vec::new());
        let reaching = rest.into_iter().filter(|(case, _)| case.numbers[0] == 0);
        for (case, _) in first.into_iter().chain(reaching) {
            let new = case.setting.iter().filter(|(_, bytes)| seen.insert(bytes.as_slice()));
            cost += new.map(|(&place, _)| shown(&case.setting, place).len()).sum::<usize>();
            if cost < room {
                kept.push(case);
            }
        }
        kept.sort_by_cached_key(|case| (case.largest(), &case.setting));
        kept
    }

    /// Adds the small comparisons of tag lists or of all else to the file, those of an entry under its name.
    fn put_small(&self, list: &mut List, of_tags: bool) {
        let mut last = "";
        for ((entry, result, _), cases) in self.small.iter().filter(|(_, cases)| cases.iter().all(|case| case.is_of_tags() == of_tags)) {
            if *entry != last {
                list.text += &format!("\n# {entry}\n");
                last = entry;
            }
            cases.iter().for_each(|case| list.put(case, ""));
            if *result == 0 {
                cases.iter().take(1).flat_map(|case| case.wrong()).for_each(|case| list.put(&case, "!"));
            }
        }
    }

    /// The text of the file, made by this command on this day from the Rust file with this sum.
    pub fn text(&self, made: &str) -> String {
        let mut list = List { text: format!("# The fixed list of answers. {made}\n{HEAD}"), setting: Setting::new() };
        self.put_small(&mut list, false);
        list.text += "\n# At the limits and past them\n";
        self.large_kept(LONGEST_LIST - list.text.len()).iter().for_each(|case| list.put(case, ""));
        self.put_small(&mut list, true);
        list.text += "\n# Tag lists at the limits and past them\n";
        let of_tags = self.large.values().filter(|case| case.is_of_tags() && case.limits() != 0 && case.cost <= TAGS_KEPT);
        of_tags.for_each(|case| list.put(case, ""));
        list.text
    }
}

/// The file so far, and what is set at its end.
struct List {
    text: String,
    setting: Setting,
}

impl List {
    /// Adds a case, with a mark before its call: what is not set so already, and the call.
    fn put(&mut self, case: &Case, mark: &str) {
        let mut text = String::new();
        for (place, bytes) in &case.setting {
            if self.setting.get(place) != Some(bytes) {
                writeln!(text, "{} {}", HOLDERS[*place], shown(&case.setting, *place)).expect("a string");
            }
        }
        self.text += &format!("{text}{mark}{}", case.line());
        self.setting.extend(case.setting.clone());
    }
}
