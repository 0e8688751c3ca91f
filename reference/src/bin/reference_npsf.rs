//! Prints the listing of the plan file on standard input.
//!
//! With `--many` the input is a stream of framed files and the output the
//! stream of their framed listings.

use std::io::{self, BufReader, BufWriter, Read, Write};
use std::process::ExitCode;

use reference::framing::{read_frame, write_frame};
use reference::listing::{listing, print_listing};

fn main() -> io::Result<ExitCode> {
    let options: Vec<String> = std::env::args().skip(1).collect();
    let options: Vec<&str> = options.iter().map(String::as_str).collect();
    match options[..] {
        [] => one()?,
        ["--many"] => many()?,
        _ => {
            eprintln!("usage: reference_npsf [--many] <files >listings");
            return Ok(ExitCode::from(2));
        }
    }
    Ok(ExitCode::SUCCESS)
}

fn one() -> io::Result<()> {
    let mut file = Vec::new();
    io::stdin().lock().read_to_end(&mut file)?;
    let mut out = BufWriter::with_capacity(1 << 16, io::stdout().lock());
    print_listing(&file, &mut out)?;
    out.flush()
}

fn many() -> io::Result<()> {
    let mut input = BufReader::with_capacity(1 << 16, io::stdin().lock());
    let mut out = BufWriter::with_capacity(1 << 16, io::stdout().lock());
    while let Some(file) = read_frame(&mut input)? {
        write_frame(&mut out, &listing(&file))?;
    }
    out.flush()
}
