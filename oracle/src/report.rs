//! Counts of comparisons for each entry, and for each entry with a mismatch the one with the smallest input.

use crate::list::Sample;
use crate::listed::Listed;
use std::collections::{BTreeMap, BTreeSet};
use std::fmt::{self, Debug, Formatter};

/// Bytes that are shown in hexadecimal, a run of one byte at the end as that byte and its count.
#[derive(PartialEq, Eq)]
pub struct Hex<'a>(pub &'a [u8]);

impl Debug for Hex<'_> {
    fn fmt(&self, out: &mut Formatter<'_>) -> fmt::Result {
        let last = self.0.last().copied().unwrap_or(0);
        let run = self.0.iter().rev().take_while(|&&byte| byte == last).count();
        let kept = if run > 8 { self.0.len() - run } else { self.0.len() };
        self.0[..kept].iter().try_for_each(|byte| write!(out, "{byte:02x}"))?;
        if kept < self.0.len() {
            write!(out, " and {run} times {last:02x}")?;
        }
        write!(out, " ({} bytes)", self.0.len())
    }
}

/// An input of a comparison.
pub enum Input<'a> {
    Bytes(&'a [u8]),
    Number(u64),
}

/// The inputs of a comparison, each with its name.
pub type Inputs<'a> = [(&'a str, Input<'a>)];

/// The size of an input: that of its bytes up to the zeros at their end.
fn size(inputs: &Inputs) -> usize {
    let of_one = |input: &Input| match input {
        Input::Bytes(bytes) => bytes.iter().rposition(|&byte| byte != 0).map_or(0, |place| place + 1),
        Input::Number(number) => number.to_string().len(),
    };
    inputs.iter().map(|(_, input)| of_one(input)).sum()
}

/// The text of a mismatch.
fn show(inputs: &Inputs, expected: &dyn Debug, got: &dyn Debug) -> String {
    let mut text = String::new();
    for (label, input) in inputs {
        text += &match input {
            Input::Bytes(bytes) => format!("    {label}: {:?}\n", Hex(bytes)),
            Input::Number(number) => format!("    {label}: {number}\n"),
        };
    }
    text + &format!("    expected: {expected:?}\n    got:      {got:?}\n")
}

/// What is known of one entry; `numbers` are the results that were expected of it.
#[derive(Default)]
struct Entry {
    compared: u64,
    mismatches: u64,
    numbers: BTreeSet<u32>,
    smallest: Option<(usize, String)>,
}

/// What is known of all entries.
#[derive(Default)]
pub struct Report {
    entries: BTreeMap<&'static str, Entry>,
    sample: Option<Sample>,
}

impl Report {
    /// A report that keeps a sample of the comparisons for the fixed list.
    pub fn with_sample() -> Report {
        Report { sample: Some(Sample::default()), ..Report::default() }
    }

    /// The sample.
    pub fn sample(&self) -> Option<&Sample> {
        self.sample.as_ref()
    }

    /// Counts a comparison of what a call gives: its result and all else.
    pub fn compare<T: PartialEq + Debug + Listed>(&mut self, name: &'static str, inputs: &Inputs, expected: (u32, T), got: (u32, T)) {
        self.entries.entry(name).or_default().numbers.insert(expected.0);
        self.list(name, inputs, expected.0.into(), &expected.1);
        self.check(name, inputs, &expected, &got);
    }

    /// Offers a comparison to the sample, if there is one.
    pub fn list(&mut self, name: &'static str, inputs: &Inputs, result: u64, expected: &dyn Listed) {
        if let Some(sample) = &mut self.sample {
            sample.offer(name, inputs, result, expected);
        }
    }

    /// Counts a comparison, and keeps it if it is the smallest mismatch of its entry.
    pub fn check<T: PartialEq + Debug>(&mut self, name: &'static str, inputs: &Inputs, expected: &T, got: &T) {
        let entry = self.entries.entry(name).or_default();
        entry.compared += 1;
        if expected == got {
            return;
        }
        entry.mismatches += 1;
        let size = size(inputs);
        if entry.smallest.as_ref().is_none_or(|smallest| size < smallest.0) {
            entry.smallest = Some((size, show(inputs, expected, got)));
        }
    }

    /// Prints the counts and the mismatches, under a title. The result is whether every comparison agreed.
    pub fn print(&self, title: &str) -> bool {
        for (name, entry) in &self.entries {
            let numbers: String = entry.numbers.iter().map(|number| format!(" {number}")).collect();
            let label = if numbers.is_empty() { "" } else { "; numbers" };
            println!("{name:<24}{:>10} compared, {} mismatches{label}{numbers}", entry.compared, entry.mismatches);
            if let Some((_, text)) = &entry.smallest {
                print!("  the smallest:\n{text}");
            }
        }
        let compared: u64 = self.entries.values().map(|entry| entry.compared).sum();
        let mismatches: u64 = self.entries.values().map(|entry| entry.mismatches).sum();
        println!("{title}: {compared} compared, {mismatches} mismatches");
        mismatches == 0
    }
}
