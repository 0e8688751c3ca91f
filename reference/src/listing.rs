//! What the program prints for a plan file.

use std::io::{self, Write};

use crate::file::{read_file, Call, Fault, Place, PlanFile};
use crate::layout::Layout;
use crate::plan::{close, Plan};
use crate::runner::Runner;

/// The program takes no file longer than this; the file reader would.
pub const MAX_FILE: usize = 60_000;

pub fn print_listing(bytes: &[u8], out: &mut impl Write) -> io::Result<()> {
    if bytes.len() > MAX_FILE {
        return writeln!(out, "refused 18");
    }
    let file = match read_file(bytes) {
        Ok(file) => file,
        Err(Fault { code, place }) => {
            return match place {
                Place::Byte(offset) => writeln!(out, "refused {code} at {offset}"),
                Place::Row(row) => writeln!(out, "refused {code} at row {row}"),
            }
        }
    };
    let planned = close(&file.tasks, file.m, file.delta)
        .and_then(|plan| Layout::make(file.layout, &plan).map(|layout| (plan, layout)));
    match planned {
        Ok((plan, layout)) => print_run(&file, &plan, layout, out),
        Err(code) => writeln!(out, "refused {code}"),
    }
}

fn print_run(file: &PlanFile, plan: &Plan, layout: Layout, out: &mut impl Write) -> io::Result<()> {
    writeln!(out, "slot {} bins {}", plan.slot, plan.bins.len())?;
    for (number, bin) in plan.bins.iter().enumerate() {
        writeln!(
            out,
            "bin {number} load {} reserve {}",
            bin.load, bin.reserve
        )?;
    }
    let mut runner = Runner::start(&file.tasks, plan, layout);
    for &call in &file.calls {
        match call {
            Call::Request(task) => {
                let answer = runner.request(usize::from(task));
                print_answer("request", task, answer, out)?;
            }
            Call::Done(task) => {
                let answer = runner.done(usize::from(task));
                print_answer("done", task, answer, out)?;
            }
            Call::Ticks(count) => {
                for _ in 0..count {
                    print_tick(&mut runner, out)?;
                }
            }
        }
    }
    writeln!(out, "end {}", runner.clock())
}

fn print_answer(
    call: &str,
    task: u8,
    answer: Result<(), u8>,
    out: &mut impl Write,
) -> io::Result<()> {
    match answer {
        Ok(()) => writeln!(out, "{call} {task} ok"),
        Err(code) => writeln!(out, "{call} {task} refused {code}"),
    }
}

fn print_tick(runner: &mut Runner, out: &mut impl Write) -> io::Result<()> {
    let clock = runner.clock();
    match runner.tick() {
        Ok(row) => {
            write!(out, "tick {clock}")?;
            for entry in row {
                match entry {
                    Some(task) => write!(out, " {task}")?,
                    None => write!(out, " -")?,
                }
            }
            writeln!(out)
        }
        Err(code) => writeln!(out, "tick refused {code}"),
    }
}

/// The listing in one piece.
pub fn listing(bytes: &[u8]) -> Vec<u8> {
    let mut lines = Vec::new();
    print_listing(bytes, &mut lines).expect("writing to memory does not fail");
    lines
}
