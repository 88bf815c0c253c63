//! What the Rust crate `ratatui-core` answers to the rows of `crates/vectors/data`.
//!
//! `rows-oracle FILE..` prints each file with the crate's answers in place of those that stand there.
mod answer;
mod args;
#[cfg(feature = "screens")]
mod backends;
mod buffers;
mod cells;
mod fault;
mod geometry;
mod layouts;
mod lines;
mod palettes;
mod rows;
#[cfg(feature = "screens")]
mod scripts;
mod spans;
mod styles;
mod stylize;
mod symbols;
#[cfg(feature = "screens")]
mod terminals;
mod texts;
mod tokens;
mod whole_texts;

use std::path::Path;
use std::{env, fs, panic};

// A line with the crate's answer.
fn answered(subject: &str, line: &str) -> String {
    if line.is_empty() || line.starts_with('#') {
        return line.to_string();
    }
    let call = line.rsplit_once(" = ").map_or(line, |(call, _)| call);
    let call = call.strip_suffix(" =").unwrap_or(call);
    let answer = panic::catch_unwind(|| rows::answer_of(subject, call));
    format!("{call} = {}", answer.as_deref().unwrap_or("requires"))
}

fn main() {
    panic::set_hook(Box::new(|_| {}));
    for name in env::args().skip(1) {
        let text = fs::read_to_string(&name).expect("a file of rows");
        let subject = Path::new(&name)
            .file_stem()
            .and_then(|stem| stem.to_str())
            .unwrap_or("");
        for line in text.lines() {
            println!("{}", answered(subject, line));
        }
    }
}
