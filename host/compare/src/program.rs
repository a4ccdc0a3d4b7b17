//! The listing program, run on every listing line of the files with right answers.

use std::fs;
use std::io::Write;
use std::process::{Command, Stdio};

use crate::vectors::unhex;

/// True if the program prints the right text for every line.
pub fn check(program: &str, files: &[&str]) -> bool {
    let (mut agreed, mut failed) = (0, 0);
    for file in files {
        let text = fs::read_to_string(file).unwrap_or_else(|error| panic!("{file}: {error}"));
        for line in text.lines().filter(|line| line.starts_with("listing ")) {
            let (record, right) = line["listing ".len()..].split_once("= text=").expect("a listing line has its text");
            let found = print(program, &unhex(record.trim()));
            if found == unhex(right) {
                agreed += 1;
            } else {
                failed += 1;
                println!("DIFFERENCE in {line}\n  found: {}", String::from_utf8_lossy(&found));
            }
        }
    }
    println!("listing program: {agreed} agree, {failed} differ");
    failed == 0 && agreed > 0
}

/// What the program writes for this record on its standard input. It may leave a part unread.
fn print(program: &str, record: &[u8]) -> Vec<u8> {
    let start = Command::new(program).stdin(Stdio::piped()).stdout(Stdio::piped()).spawn();
    let mut child = start.unwrap_or_else(|error| panic!("{program}: {error}"));
    let mut input = child.stdin.take().expect("a pipe");
    let _ = input.write_all(record);
    drop(input);
    child.wait_with_output().expect("the program ends").stdout
}
