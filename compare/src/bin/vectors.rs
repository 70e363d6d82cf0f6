//! Writes the stored calls to one file, and what the reference says of each to
//! another, a line each: `vectors CALLS ANSWERS`. `src/call.rs` has the format.
//! The lines have at most `LONGEST_LINE` characters and the calls at most
//! `MOST_BYTES` bytes, so that a program with a fixed buffer can read them.

use compare::vectors::{calls, STORED};
use std::{env, fs, process};

const LONGEST_LINE: usize = 1_800;
const MOST_BYTES: usize = 131_000;

fn main() {
    let arguments: Vec<String> = env::args().skip(1).collect();
    let [calls_path, answers_path] = arguments.as_slice() else {
        eprintln!("usage: vectors CALLS ANSWERS");
        process::exit(2);
    };
    let (mut lines, mut answers) = (String::new(), String::new());
    for call in calls(STORED) {
        assert!(call.line().len() <= LONGEST_LINE, "{call:?} is too long");
        lines += &(call.line() + "\n");
        answers += &(call.expected().line() + "\n");
    }
    assert!(lines.len() <= MOST_BYTES, "{} bytes of calls", lines.len());
    write(calls_path, &lines);
    write(answers_path, &answers);
}

fn write(path: &str, text: &str) {
    if let Err(error) = fs::write(path, text) {
        eprintln!("{path}: {error}");
        process::exit(1);
    }
}
