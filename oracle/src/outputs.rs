//! Outputs of calls: what they hold before a call, what they are to hold after it, and their comparison.

use crate::report::{Hex, Inputs, Report};

/// The value that an output number holds before a call.
pub const UNWRITTEN: u64 = 0x5A5A_5A5A_5A5A_5A5A;

/// The byte that output buffers are filled with before a call.
const FILL: u8 = 0xA5;

/// An output buffer of this length before a call.
pub fn unwritten(length: usize) -> Vec<u8> {
    vec![FILL; length]
}

/// An output buffer of this length that holds a text from its start, the bytes past it as before the call.
pub fn filled(text: &[u8], length: usize) -> Vec<u8> {
    let mut buffer = unwritten(length);
    buffer[..text.len()].copy_from_slice(text);
    buffer
}

/// Calls a function on the rooms to try for a text of this length: none, one short, just enough and more.
pub fn each_room(length: usize, mut call: impl FnMut(usize)) {
    call(0);
    call(length.saturating_sub(1));
    call(length);
    call(length + 5);
}

/// The outcome of a call with one output: the result, the output and the number written.
pub type TextOutcome = (u32, Vec<u8>, u64);

/// Compares two outcomes of a call with one output.
pub fn compare_texts(report: &mut Report, entry: &'static str, inputs: &Inputs, expected: &TextOutcome, got: &TextOutcome) {
    report.compare(entry, inputs, (expected.0, (Hex(&expected.1), expected.2)), (got.0, (Hex(&got.1), got.2)));
}

/// The outcome of a refusal with an output of this room.
pub fn refused_outcome(number: u32, room: usize) -> TextOutcome {
    (number, unwritten(room), UNWRITTEN)
}

/// The outcome of writing a text, or of the refusal before it, with an output of this room.
pub fn text_outcome(text: &Result<Vec<u8>, u32>, room: usize) -> TextOutcome {
    match text {
        Err(number) => refused_outcome(*number, room),
        Ok(text) if text.len() > room => refused_outcome(17, room),
        Ok(text) => (0, filled(text, room), text.len() as u64),
    }
}
