//! A reading of header lines and tags written from docs/FORMAT.md alone, with the number, line, place and offset of each refusal, and the
//! text of the message that the Rust gives for it.

use crate::encoder::{BODIES, LONGEST, NAMES, PAIRS};
use crate::graph::{Graph, Kind, Name, KINDS};
use std::collections::BTreeMap;

/// A refused reading: its number, its line, the quoted part as a place in the text or tag value, and the byte of it where the fault lies.
#[derive(Clone, Copy, PartialEq, Eq, Debug)]
pub struct Refusal {
    pub number: u32,
    pub line: u64,
    pub start: u64,
    pub length: u64,
    pub offset: u64,
}

/// A part of a text, with the place where it begins.
type Part<'a> = (usize, &'a [u8]);

/// The graph of what has been read, with how often each name is used.
#[derive(Default)]
struct Reader {
    graph: Graph,
    uses: BTreeMap<Name, usize>,
    bytes: usize,
    long: usize,
}

impl Reader {
    /// Counts one more use of a name.
    fn take(&mut self, name: &[u8]) {
        let uses = self.uses.entry(name.to_vec()).or_insert(0);
        *uses += 1;
        if *uses == 1 {
            self.bytes += name.len();
            self.long += usize::from(name.len() > LONGEST);
        }
    }

    /// Counts one use of a name less.
    fn drop(&mut self, name: &[u8]) {
        let uses = self.uses.get_mut(name).expect("a name in use");
        *uses -= 1;
        if *uses == 0 {
            self.uses.remove(name);
            self.bytes -= name.len();
            self.long -= usize::from(name.len() > LONGEST);
        }
    }

    /// Sets the own name.
    fn set_name(&mut self, name: &[u8]) {
        if let Some(old) = self.graph.name.take() {
            self.drop(&old);
        }
        self.take(name);
        self.graph.name = Some(name.to_vec());
    }

    /// Adds a pair.
    fn add_pair(&mut self, kind: Kind, from: &[u8], to: &[u8]) {
        if self.graph.pairs_mut(kind).insert((from.to_vec(), to.to_vec())) {
            self.take(from);
            self.take(to);
        }
    }

    /// The refusal that the sizes give now: the first of 11 to 14, or 0.
    fn sizes(&self) -> u32 {
        if self.long > 0 {
            11
        } else if self.uses.len() > NAMES {
            12
        } else if KINDS.iter().any(|&kind| self.graph.pairs(kind).len() > PAIRS) {
            13
        } else if self.bytes > BODIES {
            14
        } else {
            0
        }
    }

    /// Refuses in this line, at the start of the field that was read last, if the sizes do.
    fn judge(&self, line: u64, field_start: usize) -> Result<(), Refusal> {
        match self.sizes() {
            0 => Ok(()),
            number => Err(unquoted(number, line, field_start)),
        }
    }

    /// Reads one relation of two non-empty names round a comma, or refuses with this number, quoting this part.
    fn relation(&mut self, kind: Kind, value: &[u8], number: u32, line: u64, part: Part) -> Result<(), Refusal> {
        let names: Vec<&[u8]> = value.split(|&byte| byte == b',').collect();
        if names.len() != 2 || names.iter().any(|name| name.is_empty()) {
            return Err(quoted(number, line, part));
        }
        self.add_pair(kind, names[0], names[1]);
        self.judge(line, part.0)
    }

    /// Reads a field of an `H` line.
    fn typed_field(&mut self, line: u64, part: Part) -> Result<(), Refusal> {
        let field = part.1;
        if field.len() < 5 || field[2] != b':' || field[4] != b':' {
            return Err(quoted(3, line, part));
        }
        match &field[..5] {
            b"NM:Z:" => {
                self.set_name(&field[5..]);
                self.judge(line, part.0)
            }
            b"SG:Z:" => self.relation(Kind::Subgraph, &field[5..], 4, line, part),
            b"TL:Z:" => self.relation(Kind::Translation, &field[5..], 5, line, part),
            _ => Ok(()),
        }
    }

    /// Reads the fields of an `@` line after its first; `whole` is the line. Its sizes are judged once, at the second field.
    fn gaf_line(&mut self, line: u64, whole: Part, first: &[u8], further: &[Part]) -> Result<(), Refusal> {
        let (number, asked) = match first {
            b"@RN" => (6, 1),
            b"@SG" => (7, 2),
            b"@TL" => (8, 2),
            _ => return Ok(()),
        };
        if further.len() != asked || further.iter().any(|field| field.1.is_empty()) {
            return Err(quoted(number, line, whole));
        }
        match number {
            6 => self.set_name(further[0].1),
            7 => self.add_pair(Kind::Subgraph, further[0].1, further[1].1),
            _ => self.add_pair(Kind::Translation, further[0].1, further[1].1),
        }
        self.judge(line, further[0].0)
    }

    /// Reads a line.
    fn line(&mut self, line: u64, whole: Part) -> Result<(), Refusal> {
        let fields = split(whole, b'\t');
        let first = fields[0].1;
        if fields.len() < 2 {
            Err(unquoted(1, line, whole.0))
        } else if first == b"H" {
            fields[1..].iter().try_for_each(|&field| self.typed_field(line, field))
        } else if first.len() == 3 && first[0] == b'@' {
            self.gaf_line(line, whole, first, &fields[1..])
        } else {
            Err(quoted(2, line, fields[0]))
        }
    }
}

/// A refusal that quotes a part, whose start is its offset.
fn quoted(number: u32, line: u64, part: Part) -> Refusal {
    Refusal { number, line, start: part.0 as u64, length: part.1.len() as u64, offset: part.0 as u64 }
}

/// A refusal with this offset that quotes nothing.
fn unquoted(number: u32, line: u64, offset: usize) -> Refusal {
    Refusal { number, line, start: 0, length: 0, offset: offset as u64 }
}

/// The parts of a part between the bytes of this value.
fn split(part: Part, at: u8) -> Vec<Part> {
    let mut start = part.0;
    let mut parts = Vec::new();
    for piece in part.1.split(|&byte| byte == at) {
        parts.push((start, piece));
        start += piece.len() + 1;
    }
    parts
}

/// The lines of a text: a final byte 10 ends the last line, and an empty text has none.
fn lines_of(text: &[u8]) -> Vec<Part<'_>> {
    let mut parts = split((0, text), b'\n');
    if parts.last().is_some_and(|last| last.1.is_empty()) {
        parts.pop();
    }
    parts
}

/// The lines of a text that is valid UTF-8, as the Rust takes them.
pub fn rust_lines(text: &str) -> Vec<String> {
    let strings = lines_of(text.as_bytes()).into_iter().map(|(start, line)| text[start..start + line.len()].to_string());
    strings.collect()
}

/// Reads header lines.
pub fn read_header(text: &[u8]) -> Result<Graph, Refusal> {
    let mut reader = Reader::default();
    for (number, whole) in (1..).zip(lines_of(text)) {
        reader.line(number, whole)?;
    }
    Ok(reader.graph)
}

/// The three tag values, each present or absent.
#[derive(Clone, Copy)]
pub struct TagValues<'a> {
    pub name: Option<&'a [u8]>,
    pub subgraph: Option<&'a [u8]>,
    pub translation: Option<&'a [u8]>,
}

/// Reads the three tag values.
pub fn read_tags(tags: TagValues) -> Result<Graph, Refusal> {
    let mut reader = Reader::default();
    if let Some(name) = tags.name {
        reader.set_name(name);
        reader.judge(0, 0)?;
    }
    for (kind, number, value) in [(Kind::Subgraph, 9, tags.subgraph), (Kind::Translation, 10, tags.translation)] {
        for part in value.map_or(Vec::new(), |value| split((0, value), b';')) {
            reader.relation(kind, part.1, number, 0, part)?;
        }
    }
    Ok(reader.graph)
}

/// The message of a refusal: the Rust's text for 1 to 10, else empty.
pub fn message(number: u32, line: u64, part: &[u8]) -> Vec<u8> {
    let before = match number {
        1 => return format!("Error parsing header line {line}: not enough fields").into_bytes(),
        2 => format!("Error parsing header line {line}: unknown first field "),
        3 => "Invalid GFA typed field: ".to_string(),
        4 => "Invalid subgraph field: ".to_string(),
        5 => "Invalid translation field: ".to_string(),
        6 => "Invalid GAF name header line: ".to_string(),
        7 => "Invalid GAF subgraph header line: ".to_string(),
        8 => "Invalid GAF translation header line: ".to_string(),
        9 => "Invalid subgraph relationship: ".to_string(),
        10 => "Invalid translation relationship: ".to_string(),
        _ => return Vec::new(),
    };
    [before.as_bytes(), part].concat()
}
