//! Counts what a stream of framed listings holds.

use std::collections::BTreeMap;
use std::io::{self, BufReader};

use reference::framing::read_frame;

fn main() -> io::Result<()> {
    let mut input = BufReader::with_capacity(1 << 16, io::stdin().lock());
    let mut listings = 0;
    let mut most_lines = 0;
    let mut counts: BTreeMap<String, u64> = BTreeMap::new();
    while let Some(listing) = read_frame(&mut input)? {
        listings += 1;
        let text = String::from_utf8_lossy(&listing);
        most_lines = most_lines.max(text.lines().count());
        for line in text.lines() {
            *counts.entry(kind(line)).or_default() += 1;
        }
    }
    println!("{listings} listings, the longest of {most_lines} lines");
    for (kind, count) in counts {
        println!("{count:>10}  {kind}");
    }
    Ok(())
}

/// The line without its numbers, but for the number of a refusal.
fn kind(line: &str) -> String {
    let words: Vec<&str> = line.split(' ').collect();
    match words[..] {
        ["refused", code] => format!("refused {code:>2}"),
        ["refused", code, "at", "row", _] => format!("refused {code:>2} at row"),
        ["refused", code, "at", _] => format!("refused {code:>2} at"),
        [call, _, "refused", code] => format!("{call} refused {code}"),
        ["tick", "refused", code] => format!("tick refused {code}"),
        [call @ ("request" | "done"), _, "ok"] => format!("{call} ok"),
        ["tick", _, ref row @ ..] if row.iter().all(|entry| *entry == "-") => "tick idle".into(),
        ["tick", ..] => "tick busy".into(),
        [first, ..] => first.into(),
        [] => "empty line".into(),
    }
}
