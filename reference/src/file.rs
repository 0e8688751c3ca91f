//! The plan file: reading, and writing of what can be read.

use crate::layout::Kind;
use crate::plan::{Task, MAX_PERIOD, MAX_TASKS};

#[derive(Clone, Copy, Debug, PartialEq, Eq)]
pub enum Place {
    /// An offset in the file (for the writer: in the bytes of the calls).
    Byte(usize),
    /// A row of the table.
    Row(usize),
}

#[derive(Clone, Copy, Debug, PartialEq, Eq)]
pub struct Fault {
    pub code: u8,
    pub place: Place,
}

fn at_byte<T>(code: u8, offset: usize) -> Result<T, Fault> {
    Err(Fault {
        code,
        place: Place::Byte(offset),
    })
}

fn at_row<T>(code: u8, row: usize) -> Result<T, Fault> {
    Err(Fault {
        code,
        place: Place::Row(row),
    })
}

#[derive(Clone, Copy, Debug, PartialEq, Eq)]
pub enum Call {
    Request(u8),
    Done(u8),
    Ticks(u16),
}

#[derive(Clone, Debug, PartialEq, Eq)]
pub struct PlanFile {
    pub m: u8,
    pub delta: u8,
    pub layout: Kind,
    pub tasks: Vec<Task>,
    pub calls: Vec<Call>,
}

/// Reads fields one after the other up to an end, which is that of the file or
/// of a section.
struct Cursor<'a> {
    bytes: &'a [u8],
    at: usize,
    end: usize,
    /// The refusal of a field that the end cuts short; its place is the end.
    cut: u8,
}

const CUT_BY_FILE: u8 = 12;
const CUT_BY_SECTION: u8 = 16;

impl<'a> Cursor<'a> {
    fn over(bytes: &'a [u8], cut: u8) -> Cursor<'a> {
        Cursor {
            bytes,
            at: 0,
            end: bytes.len(),
            cut,
        }
    }

    fn at_end(&self) -> bool {
        self.at == self.end
    }

    fn field(&mut self, length: usize) -> Result<&'a [u8], Fault> {
        if self.end - self.at < length {
            return at_byte(self.cut, self.end);
        }
        let field = &self.bytes[self.at..self.at + length];
        self.at += length;
        Ok(field)
    }

    fn byte(&mut self) -> Result<u8, Fault> {
        Ok(self.field(1)?[0])
    }

    fn number(&mut self, length: usize) -> Result<u32, Fault> {
        let field = self.field(length)?;
        Ok(field
            .iter()
            .fold(0, |number, &byte| number << 8 | u32::from(byte)))
    }

    /// Steps over a section's body and answers a cursor for it.
    fn section(&mut self, length: usize) -> Result<Cursor<'a>, Fault> {
        let start = self.at;
        self.field(length)?;
        Ok(Cursor {
            bytes: self.bytes,
            at: start,
            end: self.at,
            cut: CUT_BY_SECTION,
        })
    }
}

/// Reads a plan file of any size.
pub fn read_file(bytes: &[u8]) -> Result<PlanFile, Fault> {
    let mut file = Cursor::over(bytes, CUT_BY_FILE);
    if file.field(3)? != b"NPF" {
        return at_byte(10, 0);
    }
    if file.number(2)? != 1 {
        return at_byte(11, 3);
    }
    let m = file.byte()?;
    let delta = file.byte()?;
    let Some(layout) = Kind::from_letter(file.byte()?) else {
        return at_byte(13, 7);
    };

    let mut tasks: Option<Vec<Task>> = None;
    let mut calls: Option<Vec<Call>> = None;
    while !file.at_end() {
        let letter_at = file.at;
        let letter = file.byte()?;
        let in_order = match letter {
            b'T' => tasks.is_none(),
            b'C' => tasks.is_some() && calls.is_none(),
            b'N' => tasks.is_some(),
            _ => return at_byte(13, letter_at),
        };
        if !in_order {
            return at_byte(14, letter_at);
        }
        let length_at = file.at;
        let length = file.number(2)? as usize;
        let body = file.section(length)?;
        match letter {
            b'T' => tasks = Some(read_rows(body)?),
            b'C' if length == 0 => return at_byte(17, length_at),
            b'C' => calls = Some(read_calls(body)?),
            _ => {}
        }
    }
    let Some(tasks) = tasks else {
        return at_byte(12, bytes.len());
    };
    Ok(PlanFile {
        m,
        delta,
        layout,
        tasks,
        calls: calls.unwrap_or_default(),
    })
}

fn read_rows(mut body: Cursor) -> Result<Vec<Task>, Fault> {
    let mut tasks = Vec::new();
    while !body.at_end() {
        let budget = body.number(4)?;
        let period = body.number(4)?;
        let length_at = body.at;
        let length = body.byte()?;
        if !(1..=16).contains(&length) {
            return at_byte(15, length_at);
        }
        let name_at = body.at;
        let name = body.field(usize::from(length))?;
        if let Some(bad) = name.iter().position(|byte| !(0x20..=0x7E).contains(byte)) {
            return at_byte(15, name_at + bad);
        }

        let row = tasks.len();
        if budget == 0 {
            return at_row(1, row);
        }
        if period > MAX_PERIOD {
            return at_row(2, row);
        }
        if budget > period {
            return at_row(3, row);
        }
        if row == MAX_TASKS {
            return at_row(21, row);
        }
        tasks.push(Task {
            budget,
            period,
            name: name.to_vec(),
        });
    }
    Ok(tasks)
}

fn read_calls(mut body: Cursor) -> Result<Vec<Call>, Fault> {
    let mut calls = Vec::new();
    while !body.at_end() {
        let letter_at = body.at;
        let call = match body.byte()? {
            b'R' => Call::Request(body.byte()?),
            b'D' => Call::Done(body.byte()?),
            b'K' => {
                let count_at = body.at;
                match body.number(2)? {
                    0 => return at_byte(17, count_at),
                    count => Call::Ticks(count as u16),
                }
            }
            _ => return at_byte(13, letter_at),
        };
        calls.push(call);
    }
    Ok(calls)
}

/// Writes a plan file to the start of `area` and answers its length.
pub fn write_file(
    tasks: &[Task],
    m: u8,
    delta: u8,
    letter: u8,
    calls: &[u8],
    area: &mut [u8],
) -> Result<usize, Fault> {
    if Kind::from_letter(letter).is_none() {
        return at_byte(13, 0);
    }
    read_calls(Cursor::over(calls, CUT_BY_SECTION))?;
    if calls.len() > 65_535 {
        return at_byte(18, 0);
    }

    let mut file = b"NPF\x00\x01".to_vec();
    file.extend([m, delta, letter]);
    let rows: Vec<u8> = tasks.iter().flat_map(row_bytes).collect();
    file.extend(section_bytes(b'T', &rows));
    if !calls.is_empty() {
        file.extend(section_bytes(b'C', calls));
    }
    match area.get_mut(..file.len()) {
        Some(start) => start.copy_from_slice(&file),
        None => return at_byte(19, 0),
    }
    Ok(file.len())
}

pub fn row_bytes(task: &Task) -> Vec<u8> {
    let mut row = Vec::new();
    row.extend(task.budget.to_be_bytes());
    row.extend(task.period.to_be_bytes());
    row.push(task.name.len() as u8);
    row.extend(&task.name);
    row
}

pub fn section_bytes(letter: u8, body: &[u8]) -> Vec<u8> {
    let length = u16::try_from(body.len()).expect("a section's length has two bytes");
    let mut section = vec![letter];
    section.extend(length.to_be_bytes());
    section.extend(body);
    section
}
