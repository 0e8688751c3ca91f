//! Cases that every run starts with: known examples, and small files damaged
//! at every place in turn.

use super::damage;
use super::draft::{done, pad, request, ticks, Draft};
use super::good::{good, Size};
use super::rng::Rng;
use crate::plan::Task;

pub fn pieces(rng: &mut Rng) -> Vec<Vec<u8>> {
    let mut files = examples();
    files.extend(verdicts());
    files.extend(full_tables());
    files.extend(long_files(rng));

    let small = small(rng);
    for whole in [worked().bytes(), small.bytes()] {
        files.extend((0..=whole.len()).map(|length| whole[..length].to_vec()));
        for place in 0..whole.len() {
            let mut changed = whole.clone();
            changed[place] = changed[place].wrapping_add(rng.between(1, 255) as u8);
            files.push(changed);
        }
    }
    for damage in damage::KINDS {
        files.extend((0..3).map(|_| damage(rng)));
    }
    files
}

fn tasks(numbers: &[(u32, u32)]) -> Vec<Task> {
    let task = |(place, &(budget, period))| Task {
        budget,
        period,
        name: format!("task {place}").into_bytes(),
    };
    numbers.iter().enumerate().map(task).collect()
}

/// Two tasks, (1, 3) and (2, 3), on two processors.
fn worked() -> Draft {
    let mut draft = Draft::new(2, 1, b'F', &tasks(&[(1, 3), (2, 3)]));
    for (row, name) in draft.rows.iter_mut().zip(*b"ab") {
        row.name_length = 1;
        row.name = vec![name];
    }
    draft.calls = vec![
        ticks(1),
        request(0),
        request(1),
        ticks(2),
        request(0),
        ticks(1),
    ];
    draft
}

/// A seeded file with every kind of section that is quickly cut at every place.
fn small(rng: &mut Rng) -> Draft {
    loop {
        let size = Size {
            rows: 3,
            ticks: 40,
            call_bytes: 20,
        };
        let mut draft = good(rng, &size);
        draft.notes_before = vec![vec![b'C', 0, 0]];
        draft.notes_after = vec![Vec::new(), rng.bytes(2)];
        if !draft.rows.is_empty() && !draft.calls.is_empty() && draft.bytes().len() < 130 {
            return draft;
        }
    }
}

/// All tasks requested at once after `phase` ticks, again whenever they can
/// be, and a tick before that.
fn busy(numbers: &[(u32, u32)], phase: u16, until: u32) -> Vec<Vec<u8>> {
    let mut calls: Vec<Vec<u8>> = (0..phase).map(|_| ticks(1)).collect();
    for clock in 0..until {
        for (task, (_, period)) in numbers.iter().enumerate() {
            if clock % period == 0 || clock % period == period - 1 {
                calls.push(request(task as u8));
            }
        }
        calls.push(ticks(1));
        if clock % 7 == 6 {
            calls.push(done((clock / 7 % numbers.len() as u32) as u8));
        }
    }
    calls
}

fn examples() -> Vec<Vec<u8>> {
    // Rows, deltas to try, ticks before the first requests.
    type Example<'a> = (&'a [(u32, u32)], &'a [u8], u16);
    let tables: [Example; 8] = [
        (&[(1, 2), (1, 2)], &[1], 0),
        (&[(1, 3), (1, 3), (1, 3)], &[1], 0),
        (&[(1, 3)], &[3, 4], 0),
        (&[(1, 1), (1, 1)], &[1], 0),
        (&[(5, 9), (8, 17), (5, 9)], &[1, 2], 0),
        (&[(56, 100), (60, 100), (53, 100), (63, 100)], &[1, 4], 0),
        (&[(1, 4), (1, 4)], &[1], 3),
        (&[(1, 4), (1, 4), (1, 8), (1, 8), (2, 8)], &[1, 2], 3),
    ];
    let mut files = vec![worked().bytes()];
    for (numbers, deltas, phase) in tables {
        for &delta in deltas {
            for m in 1..=4 {
                for layout in *b"FSD" {
                    let mut draft = Draft::new(m, delta, layout, &tasks(numbers));
                    draft.calls = busy(numbers, phase, 230);
                    files.push(draft.bytes());
                }
            }
        }
    }
    files
}

fn verdicts() -> Vec<Vec<u8>> {
    let mut files = Vec::new();
    for m in [0, 1, 2, 16, 17, 255] {
        for delta in [0, 1, 2, 3, 16, 17, 255] {
            for table in [tasks(&[]), tasks(&[(1, 2), (2, 3)])] {
                for layout in *b"FSD" {
                    let mut draft = Draft::new(m, delta, layout, &table);
                    draft.calls = vec![request(1), ticks(9), done(1), request(0)];
                    files.push(draft.bytes());
                }
            }
        }
    }
    files
}

/// Sixty-four rows: in one bin, in pairs, and in too many bins.
fn full_tables() -> Vec<Vec<u8>> {
    let mut files = Vec::new();
    for numbers in [[(1, 64); 64], [(15, 960); 64], [(3, 40); 64], [(9, 16); 64]] {
        for layout in *b"FSD" {
            let mut draft = Draft::new(16, 1, layout, &tasks(&numbers));
            draft.calls = (0..66).map(request).collect();
            draft.calls.push(ticks(130));
            draft.calls.extend((0..66).map(request));
            draft.calls.push(ticks(130));
            draft.calls.extend((0..66).map(done));
            files.push(draft.bytes());
        }
    }
    files
}

fn long_files(rng: &mut Rng) -> Vec<Vec<u8>> {
    let mut files = Vec::new();
    for length in [59_999, 60_000, 60_001] {
        let mut file = worked().bytes();
        pad(&mut file, length, b'T');
        files.push(file);
    }
    // Nothing but the length counts, and at 60,000 everything else does.
    files.push(rng.bytes(60_000));
    files.push(rng.bytes(60_001));

    // Calls to the last byte of the longest file.
    let head = 8 + 3 + 2 * 15 + 3;
    let mut draft = Draft::new(2, 1, b'S', &tasks(&[(1, 3), (2, 3)]));
    let mut bytes = head;
    for call in [ticks(1), request(0), request(1), ticks(2), done(1)]
        .iter()
        .cycle()
    {
        if bytes + call.len() > 60_000 {
            break;
        }
        bytes += call.len();
        draft.calls.push(call.clone());
    }
    files.push(draft.bytes());

    // As many ticks in one call as it can say, thrice.
    let long = [
        (60_000, 100_000),
        (40_000, 70_000),
        (130_000, 200_000),
        (110_000, 200_000),
    ];
    let mut draft = Draft::new(3, 2, b'S', &tasks(&long));
    draft.calls = (0..4).map(request).collect();
    for _ in 0..3 {
        draft.calls.push(ticks(65_535));
        draft.calls.extend((0..4).map(request));
    }
    files.push(draft.bytes());
    files
}
