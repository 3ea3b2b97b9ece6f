//! Measures the functions of `libgraph_name.a` against the Rust module `src/name.rs` of gbwt-rs, built as it stands, in one process.
//!
//! Each figure is the least time of many calls, ours and the Rust's in turn. A call is timed alone: its inputs are there (the Rust's
//! header lines are already split, and a graph to be changed is already cloned), output buffers are not cleared beforehand, and what the
//! Rust gives is freed after the clock has stopped. Tag lists are measured against the map of tags of `src/support.rs`, whose functions are
//! cut out by `oracle/cut_tags`. `bench/run` builds and runs the program.

#[allow(dead_code)]
#[path = "../../oracle/src/encoder.rs"]
mod encoder;
#[allow(dead_code)]
#[path = "../../oracle/src/generate.rs"]
mod generate;
#[allow(dead_code)]
#[path = "../../oracle/src/graph.rs"]
mod graph;
mod measures;
#[allow(dead_code)]
#[path = "../../oracle/src/model_paths.rs"]
mod model_paths;
#[allow(dead_code)]
#[path = "../../oracle/src/model_tags.rs"]
mod model_tags;
#[allow(dead_code)]
#[path = "../../../shared/docs/src/src/name.rs"]
mod name;
#[allow(dead_code)]
#[path = "../../oracle/src/rust_tags.rs"]
mod rust_tags;
mod sample;
#[allow(dead_code)]
#[path = "../../oracle/src/shim.rs"]
mod shim;
mod tags;
mod timing;

use sample::{samples, Sample};
use shim::{Tags, GBZ};
use tags::TagSample;
use timing::Times;

/// A measured operation on samples of a sort: graphs or tag lists.
struct Row<S> {
    title: &'static str,
    measure: fn(&S) -> Times,
}

/// A row of this title.
fn row<S>(title: &'static str, measure: fn(&S) -> Times) -> Row<S> {
    Row { title, measure }
}

/// All operations on graphs but the questions.
fn operations() -> Vec<Row<Sample>> {
    vec![
        row("reading H lines", measures::reading_gfa),
        row("reading @ lines", measures::reading_gaf),
        row("reading tags", measures::reading_tags),
        row("writing H lines", measures::writing_gfa),
        row("writing @ lines", measures::writing_gaf),
        row("writing tags", measures::writing_tags),
        row("merging two halves", measures::merging),
        row("taking on a parent", measures::taking_on),
        row("one addition", measures::adding),
        row("description, near", |s| measures::describing(s, &s.full.near.full)),
        row("description, far", |s| measures::describing(s, &s.full.far.full)),
        row("description, no", |s| measures::describing(s, &s.full.no.full)),
    ]
}

/// Both questions.
fn questions() -> Vec<Row<Sample>> {
    vec![
        row("subgraph? near, bare", |s| measures::subgraph_question(s, &s.subgraph.near.bare)),
        row("subgraph? near, full", |s| measures::subgraph_question(s, &s.subgraph.near.full)),
        row("subgraph? far, bare", |s| measures::subgraph_question(s, &s.subgraph.far.bare)),
        row("subgraph? far, full", |s| measures::subgraph_question(s, &s.subgraph.far.full)),
        row("subgraph? no, bare", |s| measures::subgraph_question(s, &s.subgraph.no.bare)),
        row("subgraph? no, full", |s| measures::subgraph_question(s, &s.subgraph.no.full)),
        row("translates? near, bare", |s| measures::full_question(s, &s.full.near.bare)),
        row("translates? near, full", |s| measures::full_question(s, &s.full.near.full)),
        row("translates? far, bare", |s| measures::full_question(s, &s.full.far.bare)),
        row("translates? far, full", |s| measures::full_question(s, &s.full.far.full)),
        row("translates? no, bare", |s| measures::full_question(s, &s.full.no.bare)),
        row("translates? no, full", |s| measures::full_question(s, &s.full.no.full)),
    ]
}

/// The operations on tag lists.
fn tag_operations() -> Vec<Row<TagSample>> {
    vec![
        row("tags get", tags::getting),
        row("tags insert, held key", tags::setting),
        row("tags insert, new key", tags::adding),
        row("tags remove", tags::removing),
    ]
}

/// Prints one line: a title and a cell for each sample.
fn line(title: &str, cells: impl Iterator<Item = String>) {
    println!("{title:<24}{}", cells.map(|cell| format!("{cell:>22}")).collect::<String>());
}

/// Measures a row and prints its ratios, with our time. The result is the ratio for each sample.
fn print<S>(row: &Row<S>, samples: &[S]) -> Vec<f64> {
    let times: Vec<Times> = samples.iter().map(row.measure).collect();
    line(row.title, times.iter().map(|one| format!("{:.2} ({:.2} us)", one.ratio(), one.ours / 1000.0)));
    times.iter().map(Times::ratio).collect()
}

/// Prints all rows of tag lists, beside the Rust's map of tags, and the cost of the test of a list.
fn print_tags() {
    let samples = tags::samples();
    println!("\nour time as a part of that of the Rust's map of tags (our time), for so many tags");
    line("", samples.iter().map(|sample| sample.title.to_string()));
    for row in tag_operations() {
        print(&row, &samples);
    }
    line("test of a tag list", samples.iter().map(|sample| format!("{:.0} ns", tags::list_test(sample))));
}

/// Prints all rows of graphs, the mean of the questions and the cost of the test of a record, and then those of tag lists.
fn main() {
    let samples = samples();
    println!("our time as a part of the Rust's (our time), for so many relations");
    line("", samples.iter().map(|sample| sample.title.to_string()));
    for row in operations() {
        print(&row, &samples);
    }
    let ratios: Vec<Vec<f64>> = questions().iter().map(|row| print(row, &samples)).collect();
    let mean = |place: usize| ratios.iter().map(|row| row[place]).sum::<f64>() / ratios.len() as f64;
    line("questions, mean", (0..samples.len()).map(|place| format!("{:.2}", mean(place))));
    line("test of a record", samples.iter().map(|sample| format!("{:.0} ns", measures::record_test(sample))));
    print_tags();
}
