//! Compares the functions of `libgraph_name.a` with the Rust module `src/name.rs` of gbwt-rs, which is built as it stands, and with models
//! written from docs/FORMAT.md where the Rust has no counterpart; those of tag lists also with the map of tags of `src/support.rs`
//! (`rust_tags`).
//!
//! The program takes the number of rounds in thousands; `--self` to check the models alone; or `--list FILE WORDS` to write the fixed list,
//! the words saying how. `oracle/run` builds and runs it.

mod buffers;
mod check_tags;
mod describe;
mod edits;
mod encoder;
mod generate;
mod graph;
mod largest;
mod limits;
mod list;
mod list_limits;
mod listed;
mod model_paths;
mod model_reading;
mod model_strict;
mod model_tags;
#[allow(dead_code)]
#[path = "../../../shared/docs/src/src/name.rs"]
mod name;
mod outputs;
mod paths;
mod reading;
mod records;
mod report;
#[allow(dead_code)]
mod rust_tags;
mod self_check;
mod shim;
mod strict;
mod tag_blocks;
mod tag_calls;
mod tag_list;
mod tag_runs;
mod tag_values;
mod texts;
mod writing;

use report::Report;
use shim::{Tags, GBZ};
use std::process::ExitCode;

/// Compares all entries.
fn entries(mut report: Report, rounds: usize) -> Report {
    let compare = [
        records::counts,
        records::name,
        records::name_at,
        records::subgraph_at,
        records::translation_at,
        records::is_same,
        edits::new,
        edits::add_subgraph,
        edits::add_translation,
        edits::make_subgraph_of,
        edits::add_translation_to,
        edits::add_relationships,
        reading::from_header_lines,
        reading::from_tags,
        reading::error_message,
        writing::to_gfa_header_lines,
        writing::to_gaf_header_lines,
        writing::set_tags,
        paths::is_subgraph_of,
        paths::translates_to,
        describe::describe_relationship,
        strict::check_strict,
        tag_list::tags_counts,
        tag_list::tags_at,
        tag_list::tags_get,
        tag_list::tags_contains_key,
        tag_list::tags_insert,
        tag_list::tags_remove,
        tag_list::tags_set_graph_name,
        tag_runs::runs,
        largest::largest_outputs,
    ];
    for entry in compare {
        entry(&mut report, rounds);
    }
    report
}

/// Checks the models, and unless they alone are asked for compares the entries. The result is whether all agreed.
fn run(rounds: usize, models_alone: bool) -> bool {
    let mut models = Report::default();
    self_check::run(&mut models, rounds);
    let agreed = models.print("models against the Rust");
    agreed & (models_alone || entries(Report::default(), rounds).print("library against the Rust and the models"))
}

/// Compares all entries once and writes the fixed list. The result is whether all agreed.
fn write_list(file: &str, made: &str) -> bool {
    let report = entries(Report::with_sample(), 1000);
    let text = report.sample().map_or(String::new(), |sample| sample.text(made));
    println!("{}: {} lines, {} bytes", file, text.lines().count(), text.len());
    std::fs::write(file, text).is_ok() & report.print("library against the Rust and the models")
}

/// Runs the comparisons on a stack of 640 KB, since no entry is to take more than 512 KB. Fails on a mismatch.
fn main() -> ExitCode {
    let words: Vec<String> = std::env::args().skip(1).collect();
    if let [mode, file, made] = &words[..] {
        if mode == "--list" {
            return if write_list(file, made) { ExitCode::SUCCESS } else { ExitCode::FAILURE };
        }
    }
    let thousands = words.iter().find_map(|word| word.parse::<usize>().ok()).unwrap_or(1);
    let models_alone = words.iter().any(|word| word == "--self");
    let thread = std::thread::Builder::new().stack_size(640 * 1024).spawn(move || run(1000 * thousands, models_alone));
    match thread.expect("a thread").join() {
        Ok(true) => ExitCode::SUCCESS,
        _ => ExitCode::FAILURE,
    }
}
