//! Writes seeded plan files, good and damaged, as a stream of frames.

use std::io::{self, BufWriter, Write};
use std::process::ExitCode;

use reference::cases::cases;
use reference::framing::write_frame;

fn main() -> io::Result<ExitCode> {
    let numbers: Option<Vec<u64>> = std::env::args()
        .skip(1)
        .map(|argument| argument.parse().ok())
        .collect();
    let Some([seed, count]) = numbers.as_deref() else {
        eprintln!("usage: reference_cases SEED COUNT >files");
        return Ok(ExitCode::from(2));
    };
    let mut out = BufWriter::with_capacity(1 << 16, io::stdout().lock());
    for file in cases(*seed, *count as usize) {
        write_frame(&mut out, &file)?;
    }
    out.flush()?;
    Ok(ExitCode::SUCCESS)
}
