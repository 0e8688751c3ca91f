//! Files with faults. Every kind starts from a small good file; which fault
//! the reader meets first is left to chance where several are possible.

use super::draft::{pad, ticks, Draft, Row, Section};
use super::good::{good, Size};
use super::rng::Rng;

pub type Kind = fn(&mut Rng) -> Vec<u8>;

pub const KINDS: [Kind; 31] = [
    wrong_mark,
    wrong_version,
    cut,
    cut_head,
    no_table,
    layout_letter,
    section_letter,
    lone_section_letter,
    call_letter,
    table_not_first,
    section_twice,
    name_length,
    name_byte,
    cut_row,
    cut_call,
    cut_section_in_whole_file,
    empty_calls,
    count_zero,
    budget_zero,
    period_too_long,
    budget_above_period,
    row_too_many,
    bad_row_too_many,
    length_past_end,
    length_off,
    byte_changed,
    byte_inserted_or_deleted,
    slice_moved,
    noise,
    too_long,
    several,
];

/// A small good file that has rows and calls.
fn base(rng: &mut Rng) -> Draft {
    loop {
        let size = Size::small(rng);
        let draft = good(rng, &size);
        if !draft.rows.is_empty() && !draft.calls.is_empty() {
            return draft;
        }
    }
}

/// A byte that is none of these.
fn byte_but(rng: &mut Rng, none_of: &[u8]) -> u8 {
    loop {
        let byte = match rng.below(3) {
            0 => *rng.pick(b"FSDTCNRKfsdtcnrkX \x00\xFF"),
            _ => rng.byte(),
        };
        if !none_of.contains(&byte) {
            return byte;
        }
    }
}

fn wrong_mark(rng: &mut Rng) -> Vec<u8> {
    let mut draft = base(rng);
    let place = rng.index(3);
    draft.mark[place] = byte_but(rng, &[draft.mark[place]]);
    draft.bytes()
}

fn wrong_version(rng: &mut Rng) -> Vec<u8> {
    let mut draft = base(rng);
    draft.version = *rng.pick(&[0, 2, 3, 0x0100, 0x0101, 0xFFFF, 0x8001]);
    draft.bytes()
}

fn cut(rng: &mut Rng) -> Vec<u8> {
    let mut bytes = base(rng).bytes();
    bytes.truncate(rng.index(bytes.len()));
    bytes
}

fn cut_head(rng: &mut Rng) -> Vec<u8> {
    let mut draft = base(rng);
    if rng.percent(40) {
        draft.mark = *b"XYZ";
    }
    if rng.percent(40) {
        draft.version = 2;
    }
    if rng.percent(40) {
        draft.layout = b'X';
    }
    let mut bytes = draft.head();
    bytes.truncate(rng.index(9));
    bytes
}

fn no_table(rng: &mut Rng) -> Vec<u8> {
    let draft = base(rng);
    let kept = rng.index(2);
    draft.with_sections(&draft.sections()[1..][..kept.min(draft.sections().len() - 1)])
}

fn layout_letter(rng: &mut Rng) -> Vec<u8> {
    let mut draft = base(rng);
    draft.layout = byte_but(rng, b"FSD");
    draft.bytes()
}

fn section_letter(rng: &mut Rng) -> Vec<u8> {
    let draft = base(rng);
    let mut sections = draft.sections();
    let place = rng.index(sections.len());
    sections[place].letter = byte_but(rng, b"TCN");
    draft.with_sections(&sections)
}

/// The file ends right after a letter, or inside the length that follows.
fn lone_section_letter(rng: &mut Rng) -> Vec<u8> {
    let draft = base(rng);
    let mut sections = draft.sections();
    sections.truncate(rng.index(sections.len() + 1));
    let mut bytes = draft.with_sections(&sections);
    let letter = match rng.below(4) {
        0 => b'T',
        1 => b'C',
        2 => b'N',
        _ => byte_but(rng, b"TCN"),
    };
    bytes.push(letter);
    if rng.percent(30) {
        bytes.push(rng.byte());
    }
    bytes
}

fn call_letter(rng: &mut Rng) -> Vec<u8> {
    let mut draft = base(rng);
    let place = rng.index(draft.calls.len());
    draft.calls[place][0] = byte_but(rng, b"RDK");
    draft.bytes()
}

fn table_not_first(rng: &mut Rng) -> Vec<u8> {
    let draft = base(rng);
    let mut sections = draft.sections();
    if sections.len() > 1 && rng.percent(50) {
        let place = rng.between(1, sections.len() as u64 - 1) as usize;
        sections.swap(0, place);
    } else {
        let note = rng.bytes(3);
        sections.insert(0, Section::new(b'N', note));
    }
    draft.with_sections(&sections)
}

fn section_twice(rng: &mut Rng) -> Vec<u8> {
    let draft = base(rng);
    let mut sections = draft.sections();
    let again = match rng.below(5) {
        0 => Section::new(b'T', Vec::new()),
        1 => Section::new(b'C', Vec::new()),
        2 => Section::new(b'C', ticks(1)),
        _ => sections[rng.index(sections.len())].clone(),
    };
    let place = rng.between(1, sections.len() as u64) as usize;
    sections.insert(place, again);
    draft.with_sections(&sections)
}

fn damage_row(rng: &mut Rng, damage: impl Fn(&mut Rng, &mut Row)) -> Vec<u8> {
    let mut draft = base(rng);
    let place = rng.index(draft.rows.len());
    damage(rng, &mut draft.rows[place]);
    draft.bytes()
}

fn bad_name_length(rng: &mut Rng, row: &mut Row) {
    row.name_length = match rng.below(4) {
        0 => 0,
        1 => 17,
        2 => 255,
        _ => rng.between(17, 255) as u8,
    };
}

fn bad_name_byte(rng: &mut Rng, row: &mut Row) {
    let place = rng.index(row.name.len());
    row.name[place] = match rng.below(6) {
        0 => 0x1F,
        1 => 0x7F,
        2 => 0x00,
        3 => 0x0A,
        _ => rng.between(0x7F, 0xFF) as u8,
    };
}

fn name_length(rng: &mut Rng) -> Vec<u8> {
    damage_row(rng, bad_name_length)
}

fn name_byte(rng: &mut Rng) -> Vec<u8> {
    damage_row(rng, bad_name_byte)
}

fn budget_zero(rng: &mut Rng) -> Vec<u8> {
    damage_row(rng, |rng, row| {
        row.budget = 0;
        if rng.percent(30) {
            row.period = *rng.pick(&[0, 1_000_001, u32::MAX]);
        }
    })
}

fn period_too_long(rng: &mut Rng) -> Vec<u8> {
    damage_row(rng, |rng, row| {
        row.period = *rng.pick(&[1_000_001, 1_000_002, 0x0100_0000, u32::MAX]);
        if rng.percent(30) {
            row.budget = u32::MAX;
        }
    })
}

fn budget_above_period(rng: &mut Rng) -> Vec<u8> {
    damage_row(rng, |rng, row| {
        if rng.percent(30) {
            row.period = *rng.pick(&[0, 1, 1_000_000]);
        }
        row.budget = match rng.below(3) {
            0 => u32::MAX,
            _ => row.period + rng.between(1, 3) as u32,
        };
    })
}

/// The table ends inside a row. The rest of the row may follow the section.
fn cut_row(rng: &mut Rng) -> Vec<u8> {
    let mut draft = base(rng);
    let last = rng.index(draft.rows.len());
    draft.rows.truncate(last + 1);
    if rng.percent(25) {
        bad_name_byte(rng, &mut draft.rows[last]);
    }
    if rng.percent(25) {
        draft.rows[last].budget = 0;
    }
    let mut sections = draft.sections();
    let row = draft.rows[last].bytes().len();
    cut_section(rng, &mut sections[0], row);
    draft.with_sections(&sections)
}

fn cut_call(rng: &mut Rng) -> Vec<u8> {
    let mut draft = base(rng);
    let last = rng.index(draft.calls.len());
    draft.calls.truncate(last + 1);
    let mut sections = draft.sections();
    let call = draft.calls[last].len();
    let calls = sections.iter_mut().find(|section| section.letter == b'C');
    cut_section(rng, calls.expect("the base has calls"), call);
    draft.with_sections(&sections)
}

/// Takes away a part, but not all, of a section's last item.
fn cut_section(rng: &mut Rng, section: &mut Section, item: usize) {
    let gone = rng.between(1, item as u64 - 1) as usize;
    section.length -= gone;
    if rng.percent(60) {
        section.body.truncate(section.length);
    }
}

/// A section is shorter than it was, at any place, and what was its rest is
/// gone too.
fn cut_section_in_whole_file(rng: &mut Rng) -> Vec<u8> {
    let draft = base(rng);
    let mut sections = draft.sections();
    let place = rng.index(sections.len());
    let section = &mut sections[place];
    section.length = rng.index(section.length + 1);
    section.body.truncate(section.length);
    draft.with_sections(&sections)
}

fn empty_calls(rng: &mut Rng) -> Vec<u8> {
    let mut draft = base(rng);
    draft.calls = vec![Vec::new()];
    draft.bytes()
}

fn count_zero(rng: &mut Rng) -> Vec<u8> {
    let mut draft = base(rng);
    let place = rng.index(draft.calls.len() + 1);
    draft.calls.insert(place, ticks(0));
    draft.bytes()
}

fn full_table(rng: &mut Rng) -> Draft {
    let mut draft = base(rng);
    while draft.rows.len() < 64 {
        let row = draft.rows[rng.index(draft.rows.len())].clone();
        draft.rows.push(row);
    }
    draft
}

fn row_too_many(rng: &mut Rng) -> Vec<u8> {
    let mut draft = full_table(rng);
    for _ in 0..rng.between(1, 5) {
        draft.rows.push(draft.rows[0].clone());
    }
    draft.bytes()
}

fn bad_row_too_many(rng: &mut Rng) -> Vec<u8> {
    let mut draft = full_table(rng);
    let mut row = draft.rows[0].clone();
    let whole = row.bytes().len();
    let mut cut = false;
    match rng.below(6) {
        0 => bad_name_length(rng, &mut row),
        1 => bad_name_byte(rng, &mut row),
        2 => row.budget = 0,
        3 => row.period = 1_000_001,
        4 => row.budget = row.period + 1,
        _ => cut = true,
    }
    draft.rows.push(row);
    let mut sections = draft.sections();
    if cut {
        cut_section(rng, &mut sections[0], whole);
    }
    draft.with_sections(&sections)
}

/// The last section, of any letter, says that it is longer than the file.
fn length_past_end(rng: &mut Rng) -> Vec<u8> {
    let draft = base(rng);
    let mut sections = draft.sections();
    sections.truncate(rng.between(1, sections.len() as u64) as usize);
    if rng.percent(20) {
        sections.push(Section::new(b'N', Vec::new()));
    }
    let last = sections.last_mut().expect("there is a table");
    last.length = match rng.below(3) {
        0 => 0xFFFF,
        _ => last.body.len() + rng.between(1, 4) as usize,
    };
    // The body's own faults do not matter.
    if let (true, Some(first)) = (rng.percent(30), last.body.first_mut()) {
        *first = rng.byte();
    }
    draft.with_sections(&sections)
}

/// A wrong length somewhere: what follows is read at the wrong places.
fn length_off(rng: &mut Rng) -> Vec<u8> {
    let draft = base(rng);
    let mut sections = draft.sections();
    let place = rng.index(sections.len());
    let length = &mut sections[place].length;
    *length = match rng.below(4) {
        0 => *length + rng.between(1, 30) as usize,
        1 => length.saturating_sub(rng.between(1, 30) as usize),
        2 => length.saturating_sub(1),
        _ => rng.below(60) as usize,
    };
    draft.with_sections(&sections)
}

fn byte_changed(rng: &mut Rng) -> Vec<u8> {
    let mut bytes = base(rng).bytes();
    let place = rng.index(bytes.len());
    bytes[place] = match rng.below(3) {
        0 => bytes[place] ^ 1 << rng.below(8),
        1 => byte_but(rng, &[bytes[place]]),
        _ => bytes[place].wrapping_add(*rng.pick(&[1, 255])),
    };
    bytes
}

fn byte_inserted_or_deleted(rng: &mut Rng) -> Vec<u8> {
    let mut bytes = base(rng).bytes();
    let place = rng.index(bytes.len());
    if rng.percent(50) {
        bytes.remove(place);
    } else {
        bytes.insert(place, rng.byte());
    }
    bytes
}

fn slice_moved(rng: &mut Rng) -> Vec<u8> {
    let mut bytes = base(rng).bytes();
    let from = rng.index(bytes.len());
    let length = rng.between(1, (bytes.len() - from).min(20) as u64) as usize;
    let slice: Vec<u8> = match rng.percent(50) {
        true => bytes.drain(from..from + length).collect(),
        false => bytes[from..from + length].to_vec(),
    };
    let to = rng.index(bytes.len() + 1);
    bytes.splice(to..to, slice);
    bytes
}

/// Bytes from nowhere, with or without a good head.
fn noise(rng: &mut Rng) -> Vec<u8> {
    let draft = base(rng);
    let mut bytes = match rng.below(4) {
        0 => Vec::new(),
        1 => draft.head(),
        2 => draft.with_sections(&draft.sections()[..1]),
        _ => draft.bytes(),
    };
    for _ in 0..rng.below(60) {
        let byte = match rng.below(2) {
            0 => *rng.pick(b"TCNRDKF\x00\x01"),
            _ => rng.byte(),
        };
        bytes.push(byte);
    }
    bytes
}

/// About the longest file that the program takes, on either side, with or
/// without another fault.
fn too_long(rng: &mut Rng) -> Vec<u8> {
    let mut draft = base(rng);
    if rng.percent(20) {
        draft.version = 7;
    }
    let mut bytes = draft.bytes();
    let length = *rng.pick(&[59_999, 60_000, 60_001, 60_002, 65_536]);
    pad(&mut bytes, length, rng.byte());
    if rng.percent(20) {
        let last = bytes.len() - 1;
        bytes.truncate(last);
        bytes.push(b'X');
    }
    bytes
}

/// Two or three faults, and perhaps a verdict that none of them lets through.
fn several(rng: &mut Rng) -> Vec<u8> {
    let mut draft = base(rng);
    for _ in 0..rng.between(2, 3) {
        let row = rng.index(draft.rows.len());
        let call = rng.index(draft.calls.len());
        match rng.below(8) {
            0 => bad_name_byte(rng, &mut draft.rows[row]),
            1 => bad_name_length(rng, &mut draft.rows[row]),
            2 => draft.rows[row].budget = 0,
            3 => draft.rows[row].period = 1_000_001,
            4 => draft.rows[row].budget = u32::MAX,
            5 => draft.calls[call] = ticks(0),
            6 => draft.calls[call][0] = byte_but(rng, b"RDK"),
            _ => draft.m = *rng.pick(&[0, 17]),
        }
    }
    draft.bytes()
}
