//! Seeded plan files, good and damaged, for comparing two programs.

mod damage;
mod draft;
mod good;
mod pieces;
mod rng;

use crate::file::{read_file, Call};
use rng::Rng;

/// No case has a longer listing.
pub const MOST_LINES: u64 = 200_000;

/// The first `count` cases of a seed.
pub fn cases(seed: u64, count: usize) -> impl Iterator<Item = Vec<u8>> {
    let mut rng = Rng::new(seed);
    let mut pieces = pieces::pieces(&mut rng).into_iter();
    std::iter::from_fn(move || Some(pieces.next().unwrap_or_else(|| random(&mut rng))))
        // Damage can turn small counts into large ones.
        .filter(|file| lines_at_most(file) <= MOST_LINES)
        .take(count)
}

fn random(rng: &mut Rng) -> Vec<u8> {
    match rng.below(100) {
        0..42 => {
            let size = good::Size::of_run(rng);
            let mut file = good::good(rng, &size).bytes();
            if rng.percent(1) {
                let length = *rng.pick(&[60_000, 60_001]);
                draft::pad(&mut file, length, b'C');
            }
            file
        }
        42..52 => {
            let size = good::Size::of_run(rng);
            good::split(rng, &size).bytes()
        }
        52..59 => good::tight(rng).bytes(),
        _ => rng.pick(&damage::KINDS)(rng),
    }
}

/// A bound on the lines of a file's listing.
fn lines_at_most(file: &[u8]) -> u64 {
    let calls = read_file(file).map_or(Vec::new(), |file| file.calls);
    let lines: u64 = calls
        .iter()
        .map(|call| match call {
            Call::Ticks(count) => u64::from(*count),
            Call::Request(_) | Call::Done(_) => 1,
        })
        .sum();
    // Slot, bins and end.
    lines + 66
}
