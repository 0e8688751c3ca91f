//! Files for the tests, as hexadecimal text or from their parts.
#![allow(dead_code)] // no test file needs all of them

use reference::file::{section_bytes, write_file};
use reference::listing::listing;
use reference::plan::Task;

pub fn hex(text: &str) -> Vec<u8> {
    let digits: Vec<u8> = text.bytes().filter(u8::is_ascii_hexdigit).collect();
    digits
        .chunks(2)
        .map(|pair| u8::from_str_radix(std::str::from_utf8(pair).unwrap(), 16).unwrap())
        .collect()
}

pub fn text(bytes: &[u8]) -> String {
    String::from_utf8(listing(bytes)).unwrap()
}

pub fn tasks(numbers: &[(u32, u32)]) -> Vec<Task> {
    numbers
        .iter()
        .map(|&(budget, period)| Task {
            budget,
            period,
            name: b"task".to_vec(),
        })
        .collect()
}

pub fn file(m: u8, delta: u8, letter: u8, numbers: &[(u32, u32)], calls: &[u8]) -> Vec<u8> {
    let mut area = vec![0; 70_000];
    let length = write_file(&tasks(numbers), m, delta, letter, calls, &mut area).unwrap();
    area.truncate(length);
    area
}

/// Adds a note that makes the file this long.
pub fn padded(mut file: Vec<u8>, length: usize) -> Vec<u8> {
    let note = vec![b'T'; length - file.len() - 3];
    file.extend(section_bytes(b'N', &note));
    assert_eq!(file.len(), length);
    file
}

/// Two tasks, (1, 3) and (2, 3), on two processors; 49 bytes.
pub const WORKED: &str = "4E5046 0001 02 01 46
    54 0014 00000001 00000003 01 61 00000002 00000003 01 62
    43 000F 4B0001 5200 5201 4B0002 5200 4B0001";
