//! The programs as they are run.

mod common;

use std::io::Write;
use std::process::{Command, Output, Stdio};

use common::{hex, WORKED};
use reference::cases::cases;
use reference::framing::{read_frame, write_frame};
use reference::listing::listing;

fn run(program: &str, arguments: &[&str], input: &[u8]) -> Output {
    let mut child = Command::new(program)
        .args(arguments)
        .stdin(Stdio::piped())
        .stdout(Stdio::piped())
        .stderr(Stdio::piped())
        .spawn()
        .unwrap();
    let mut stdin = child.stdin.take().unwrap();
    let input = input.to_vec();
    // The program may answer before it has read everything.
    let writer = std::thread::spawn(move || stdin.write_all(&input));
    let output = child.wait_with_output().unwrap();
    // A program that takes no input may be gone before it is written.
    let _ = writer.join().unwrap();
    output
}

const LISTING: &str = env!("CARGO_BIN_EXE_reference_npsf");
const CASES: &str = env!("CARGO_BIN_EXE_reference_cases");
const SUMMARY: &str = env!("CARGO_BIN_EXE_reference_summary");

fn framed(files: &[Vec<u8>]) -> Vec<u8> {
    let mut stream = Vec::new();
    for file in files {
        write_frame(&mut stream, file).unwrap();
    }
    stream
}

#[test]
fn one_file() {
    let worked = hex(WORKED);
    let whole = run(LISTING, &[], &worked);
    assert!(whole.status.success());
    assert_eq!(whole.stdout, listing(&worked));
    assert_eq!(
        run(LISTING, &[], &worked[..32]).stdout,
        b"refused 12 at 32\n"
    );
    assert_eq!(run(LISTING, &[], &[]).stdout, b"refused 12 at 0\n");
    assert_eq!(run(LISTING, &[], &[0; 60_001]).stdout, b"refused 18\n");
}

#[test]
fn many_files() {
    let files: Vec<Vec<u8>> = cases(2, 400).collect();
    let stream = framed(&files);
    assert_eq!(run(CASES, &["2", "400"], &[]).stdout, stream);
    let listings = run(LISTING, &["--many"], &stream);
    assert!(listings.status.success());
    let expected: Vec<Vec<u8>> = files.iter().map(|file| listing(file)).collect();
    assert!(listings.stdout == framed(&expected));
    assert!(run(LISTING, &["--many"], &[]).stdout.is_empty());
}

#[test]
fn summary_counts_lines() {
    let worked = hex(WORKED);
    let listings = [listing(&worked), listing(&worked[..32])];
    let summary = run(SUMMARY, &[], &framed(&listings)).stdout;
    let summary = String::from_utf8(summary).unwrap();
    let lines: Vec<&str> = summary.lines().map(str::trim).collect();
    assert_eq!(lines[0], "2 listings, the longest of 11 lines");
    for line in [
        "2  bin",
        "1  end",
        "1  refused 12 at",
        "2  request ok",
        "1  request refused 22",
        "1  slot",
        "2  tick busy",
        "2  tick idle",
    ] {
        assert!(lines.contains(&line), "{line} in {summary}");
    }
}

#[test]
fn frames_are_whole_or_an_error() {
    let stream = framed(&[b"ab".to_vec(), Vec::new()]);
    assert_eq!(stream, b"\0\0\0\x02ab\0\0\0\0");
    let mut rest = &stream[..];
    assert_eq!(read_frame(&mut rest).unwrap(), Some(b"ab".to_vec()));
    assert_eq!(read_frame(&mut rest).unwrap(), Some(Vec::new()));
    assert_eq!(read_frame(&mut rest).unwrap(), None);
    for length in 1..6 {
        assert!(read_frame(&mut &stream[..length]).is_err());
    }
    assert!(!run(LISTING, &["--many"], &stream[..5]).status.success());
}

#[test]
fn wrong_arguments() {
    assert_eq!(run(LISTING, &["--more"], &[]).status.code(), Some(2));
    assert_eq!(run(CASES, &["1"], &[]).status.code(), Some(2));
    assert_eq!(run(CASES, &["1", "x"], &[]).status.code(), Some(2));
}
