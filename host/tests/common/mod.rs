//! The files of `examples/`, the built tools, and a folder for what they write.

#![allow(dead_code)]

use std::io::Write;
use std::path::PathBuf;
use std::process::{Command, Output, Stdio};

pub const FITTED: [&str; 7] = [
    "document-01",
    "night",
    "night-indat",
    "wrong-piers",
    "many-terms",
    "no-iterations",
    "one-place",
];

pub fn example(file: &str) -> PathBuf {
    PathBuf::from(env!("CARGO_MANIFEST_DIR"))
        .join("../examples")
        .join(file)
}

pub fn path(file: &str) -> String {
    example(file).to_str().expect("a path in UTF-8").into()
}

pub fn bytes(file: &str) -> Vec<u8> {
    std::fs::read(example(file)).expect(file)
}

pub fn text(file: &str) -> String {
    String::from_utf8(bytes(file)).expect(file)
}

/// A path for a file that a test writes.
pub fn written(file: &str) -> String {
    let dir = PathBuf::from(env!("CARGO_TARGET_TMPDIR"));
    dir.join(file).to_str().expect("a path in UTF-8").into()
}

fn tool(name: &str) -> Command {
    Command::new(match name {
        "pmf-make" => env!("CARGO_BIN_EXE_pmf-make"),
        _ => env!("CARGO_BIN_EXE_pmf-card"),
    })
}

/// Runs a tool with words and standard input.
pub fn run(name: &str, words: &[&str], input: &[u8]) -> Output {
    let mut child = tool(name)
        .args(words)
        .stdin(Stdio::piped())
        .stdout(Stdio::piped())
        .stderr(Stdio::piped())
        .spawn()
        .expect(name);
    // a tool that ends before it reads closes the pipe
    let _ = child.stdin.take().expect("a pipe").write_all(input);
    child.wait_with_output().expect(name)
}

pub fn code(output: &Output) -> i32 {
    output.status.code().expect("an exit code")
}

pub fn out(output: &Output) -> String {
    String::from_utf8(output.stdout.clone()).expect("text")
}

pub fn err(output: &Output) -> String {
    String::from_utf8(output.stderr.clone()).expect("text")
}
