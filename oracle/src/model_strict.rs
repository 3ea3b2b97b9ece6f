//! The strict reading by the regular expressions of the GFA 1 specification, matched by brute force: a matcher gives every place at which
//! a match that begins at a place may end.

use std::collections::BTreeSet;

/// The expression of each type's values.
const VALUES: [(u8, &str); 7] = [
    (b'A', "[!-~]"),
    (b'i', "[-+]?[0-9]+"),
    (b'f', r"[-+]?[0-9]*\.?[0-9]+([eE][-+]?[0-9]+)?"),
    (b'Z', "[ !-~]+"),
    (b'J', "[ !-~]+"),
    (b'H', "[0-9A-F]+"),
    (b'B', r"[cCsSiIf](,[-+]?[0-9]*\.?[0-9]+([eE][-+]?[0-9]+)?)+"),
];

/// The expression of a tag: two letters, as docs/FORMAT.md has it.
const TAG: &str = "[A-Za-z][A-Za-z]";

/// One item of an expression: what it matches once, and how often it may stand.
struct Item {
    once: Once,
    least: usize,
    repeats: bool,
}

/// What an item matches once: a byte of a set, or a sequence of items.
enum Once {
    Byte(Vec<u8>),
    Group(Vec<Item>),
}

/// Reads a sequence of items, to the end of the expression or to a closing bracket.
fn parse(text: &mut std::iter::Peekable<std::slice::Iter<u8>>) -> Vec<Item> {
    let mut items = Vec::new();
    while let Some(&byte) = text.next() {
        let once = match byte {
            b')' => break,
            b'(' => Once::Group(parse(text)),
            b'[' => Once::Byte(parse_set(text)),
            b'\\' => Once::Byte(vec![*text.next().expect("a byte after a backslash")]),
            _ => Once::Byte(vec![byte]),
        };
        let (least, repeats) = match text.peek() {
            Some(b'?') => (0, false),
            Some(b'*') => (0, true),
            Some(b'+') => (1, true),
            _ => (1, false),
        };
        if (least, repeats) != (1, false) {
            text.next();
        }
        items.push(Item { once, least, repeats });
    }
    items
}

/// Reads a set to its closing bracket: bytes and ranges, a minus at its start being a byte.
fn parse_set(text: &mut std::iter::Peekable<std::slice::Iter<u8>>) -> Vec<u8> {
    let mut set: Vec<u8> = Vec::new();
    loop {
        match *text.next().expect("a closing bracket") {
            b']' => return set,
            b'-' if !set.is_empty() => {
                let low = set.pop().expect("the start of a range");
                set.extend(low..=*text.next().expect("the end of a range"));
            }
            byte => set.push(byte),
        }
    }
}

/// The places at which one match of an item that begins at a place may end.
fn ends_of_once(once: &Once, text: &[u8], start: usize) -> BTreeSet<usize> {
    match once {
        Once::Byte(set) => text.get(start).filter(|byte| set.contains(byte)).map(|_| start + 1).into_iter().collect(),
        Once::Group(items) => ends(items, text, start),
    }
}

/// The places at which a match of an item, repeated as it may be, may end.
fn ends_of_item(item: &Item, text: &[u8], start: usize) -> BTreeSet<usize> {
    let mut result = BTreeSet::new();
    let mut edge = BTreeSet::from([start]);
    if item.least == 0 {
        result.insert(start);
    }
    while !edge.is_empty() {
        let next: BTreeSet<usize> = edge.iter().flat_map(|&place| ends_of_once(&item.once, text, place)).collect();
        edge = next.difference(&result).copied().collect();
        result.extend(next);
        if !item.repeats {
            break;
        }
    }
    result
}

/// The places at which a match of all items in turn may end.
fn ends(items: &[Item], text: &[u8], start: usize) -> BTreeSet<usize> {
    let mut places = BTreeSet::from([start]);
    for item in items {
        places = places.iter().flat_map(|&place| ends_of_item(item, text, place)).collect();
    }
    places
}

/// A parsed expression.
pub struct Expression {
    items: Vec<Item>,
}

impl Expression {
    /// Reads an expression.
    pub fn new(text: &str) -> Expression {
        Expression { items: parse(&mut text.as_bytes().iter().peekable()) }
    }

    /// Whether the whole text matches.
    pub fn matches(&self, text: &[u8]) -> bool {
        ends(&self.items, text, 0).contains(&text.len())
    }
}

/// The parsed expressions of the strict reading.
pub struct Grammar {
    tag: Expression,
    values: Vec<(u8, Expression)>,
}

impl Grammar {
    /// Reads all expressions.
    pub fn new() -> Grammar {
        let values = VALUES.iter().map(|&(kind, text)| (kind, Expression::new(text)));
        Grammar { tag: Expression::new(TAG), values: values.collect() }
    }

    /// Whether a field is a tag, a colon, a type, a colon and a value of that type.
    fn is_field(&self, field: &[u8]) -> bool {
        if field.len() < 5 || field[2] != b':' || field[4] != b':' {
            return false;
        }
        let value = |(kind, expression): &(u8, Expression)| *kind == field[3] && expression.matches(&field[5..]);
        self.tag.matches(&field[..2]) && self.values.iter().any(value)
    }

    /// The strict reading of a line: 0 for fine, else one more than the number of the first faulty field.
    pub fn check(&self, line: &[u8]) -> u64 {
        let fields: Vec<&[u8]> = line.split(|&byte| byte == b'\t').collect();
        if fields[0] != b"H" {
            return 1;
        }
        let mut tags: BTreeSet<&[u8]> = BTreeSet::new();
        for (number, field) in (1..).zip(&fields[1..]) {
            if !self.is_field(field) || !tags.insert(&field[..2]) {
                return number + 1;
            }
        }
        0
    }
}
