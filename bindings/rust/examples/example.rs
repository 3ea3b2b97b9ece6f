//! Reads header lines into two records, shows a refusal, asks how the two graphs are related, writes GAF lines, and keeps the tags of a
//! graph. It prints `bindings/example.stdout`.
//!
//!     ./build
//!     cargo run --manifest-path bindings/rust/Cargo.toml --example example

use graph_name::{kind, number};

/// Ends the program if a call was refused.
fn must(result: u32) {
    assert_eq!(result, number::DONE, "refused");
}

/// Bytes as text, which those of this program are.
fn text(bytes: &[u8]) -> &str {
    std::str::from_utf8(bytes).expect("the names of this program are ASCII")
}

/// Reads header lines into a record, and prints a refusal: its number, its line, its offset in the text, from 0, and the error message with
/// the quoted part of the text.
fn read_lines(lines: &[u8]) -> Vec<u8> {
    let mut record = vec![0; graph_name::RECORD_BYTES];
    let (mut line, mut start, mut length, mut offset, mut written) = (0, 0, 0, 0, 0);
    let number = graph_name::from_header_lines(lines, &mut record, &mut line, &mut start, &mut length, &mut offset);
    if number != number::DONE {
        let part = &lines[start as usize..(start + length) as usize];
        let mut message = vec![0; graph_name::MAX_MESSAGE_WORDS + part.len()];
        must(graph_name::error_message(number, line, part, &mut message, &mut written));
        println!("refused with {number} in line {line} at byte {offset}: {}", text(&message[..written as usize]));
    }
    record
}

/// The number of two bytes at a place, low byte first.
fn number_at(bytes: &[u8], place: usize) -> u16 {
    u16::from_le_bytes([bytes[place], bytes[place + 1]])
}

/// Prints the names of a path: a count, an entry for each name (its length, the kind of the step that leaves it), and the names.
fn print_path(path: &[u8]) {
    let count = number_at(path, 0) as usize;
    let mut at = 2 + 4 * count;
    for entry in (0..count).map(|place| 2 + 4 * place) {
        let end = at + number_at(path, entry) as usize;
        let words = match number_at(path, entry + 2) {
            kind::SUBGRAPH => " is a subgraph of",
            kind::TRANSLATION => " translates to",
            _ => "",
        };
        println!("  {}{words}", text(&path[at..end]));
        at = end;
    }
}

/// The part of a tag list at a place.
fn part(tags: &[u8], start: u64, length: u64) -> &str {
    text(&tags[start as usize..(start + length) as usize])
}

/// Prints the value of a key, and then all tags.
fn print_tags(tags: &[u8], key: &str) {
    let (mut present, mut start, mut length, mut count, mut value_start, mut value_length) = (0, 0, 0, 0, 0, 0);
    must(graph_name::tags_get(tags, key.as_bytes(), &mut present, &mut start, &mut length));
    println!("{key}: {}", part(tags, start, length));
    must(graph_name::tags_counts(tags, &mut count));
    println!("{count} tags");
    for place in 0..count {
        must(graph_name::tags_at(
            tags, place, &mut present, &mut start, &mut length, &mut value_start, &mut value_length,
        ));
        println!("  {}: {}", part(tags, start, length), part(tags, value_start, value_length));
    }
}

/// Yes or no.
fn word(answer: u64) -> &'static str {
    if answer == 1 { "yes" } else { "no" }
}

fn main() {
    // The third field that the @SG line of line 2 must have is missing.
    read_lines(b"@RN\tchr20\n@SG\tchr20\n");

    let mut sample = read_lines(b"H\tVN:Z:1.1\tNM:Z:chr20\nH\tSG:Z:chr20,clipped\n");
    let reference = read_lines(b"@RN\tfull\n@TL\tclipped\tfull\n");

    // The questions go by the relations of both records. Outputs of the largest sizes are never too short.
    let mut path = vec![0; graph_name::MAX_PATH_BYTES];
    let (mut answer, mut written) = (0, 0);
    must(graph_name::is_subgraph_of(&sample, &reference, &mut path, &mut answer));
    println!("subgraph: {}", word(answer));
    must(graph_name::translates_to(&sample, &reference, &mut path, &mut answer));
    println!("translates: {}", word(answer));
    if answer == 1 {
        print_path(&path);
    }

    // The sample takes over the relations of the reference, and is written with them.
    let mut lines = vec![0; graph_name::MAX_GAF_BYTES];
    must(graph_name::add_relationships(&mut sample, &reference));
    must(graph_name::to_gaf_header_lines(&sample, &mut lines, &mut written));
    print!("{}", text(&lines[..written as usize]));

    // A tag of another kind stays beside the three of the sample. Keys are lowered; all zeros is the empty tag list.
    let mut tags = vec![0; graph_name::TAGS_BYTES];
    must(graph_name::tags_insert(&mut tags, b"Source", b"field office"));
    must(graph_name::tags_set_graph_name(&mut tags, &sample));
    print_tags(&tags, "SOURCE");
}
