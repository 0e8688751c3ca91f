//! Which processor serves which bin in which tick.

use crate::plan::Plan;

/// The clock's end: the ticks are those before it.
pub const CLOCK_END: u64 = 1_000_000_000;

#[derive(Clone, Copy, Debug, PartialEq, Eq)]
pub enum Kind {
    Flat,
    SemiPartitioned,
    Dedicated,
}

impl Kind {
    pub const ALL: [Kind; 3] = [Kind::Flat, Kind::SemiPartitioned, Kind::Dedicated];

    pub fn from_letter(letter: u8) -> Option<Kind> {
        match letter {
            b'F' => Some(Kind::Flat),
            b'S' => Some(Kind::SemiPartitioned),
            b'D' => Some(Kind::Dedicated),
            _ => None,
        }
    }

    pub fn letter(self) -> u8 {
        match self {
            Kind::Flat => b'F',
            Kind::SemiPartitioned => b'S',
            Kind::Dedicated => b'D',
        }
    }
}

#[derive(Clone, Debug)]
pub struct Layout {
    kind: Kind,
    processors: usize,
    slot: i64,
    reserves: Vec<i64>,
    /// Flat: where each bin starts on the line of all processors' slots.
    /// Semi-partitioned: where each bin past the processors starts on the line
    /// of the time that the other bins leave free; 0 for the others.
    starts: Vec<i64>,
    /// Semi-partitioned: entry q is the time left free on the processors
    /// below q. It has one entry more than there are processors.
    free_below: Vec<i64>,
}

impl Layout {
    /// Lays out the bins of a plan, or answers 27 if they do not go in.
    pub fn make(kind: Kind, plan: &Plan) -> Result<Layout, u8> {
        let total: u64 = plan.bins.iter().map(|bin| bin.reserve).sum();
        let goes_in = match kind {
            Kind::Flat | Kind::SemiPartitioned => total <= plan.processors as u64 * plan.slot,
            Kind::Dedicated => plan.bins.len() <= plan.processors,
        };
        if !goes_in {
            return Err(27);
        }

        let slot = plan.slot as i64;
        let reserves: Vec<i64> = plan.bins.iter().map(|bin| bin.reserve as i64).collect();
        let first_placed = match kind {
            Kind::SemiPartitioned => plan.processors,
            Kind::Flat | Kind::Dedicated => 0,
        };
        let starts = (0..reserves.len())
            .map(|bin| reserves.iter().take(bin).skip(first_placed).sum())
            .collect();
        let free_below = (0..=plan.processors)
            .map(|q| {
                (0..q)
                    .map(|bin| slot - reserves.get(bin).unwrap_or(&0))
                    .sum()
            })
            .collect();
        Ok(Layout {
            kind,
            processors: plan.processors,
            slot,
            reserves,
            starts,
            free_below,
        })
    }

    pub fn processors(&self) -> usize {
        self.processors
    }

    pub fn bins(&self) -> usize {
        self.reserves.len()
    }

    /// The processor that serves the bin in the tick, if one does.
    pub fn serve(&self, tick: u64, bin: usize) -> Option<usize> {
        if tick >= CLOCK_END || bin >= self.reserves.len() {
            return None;
        }
        let t = tick as i64;
        let reserve = self.reserves[bin];
        match self.kind {
            Kind::Flat => {
                let start = self.starts[bin];
                let k = (t - start).rem_euclid(self.slot);
                (k < reserve).then(|| ((start + k) / self.slot) as usize)
            }
            Kind::SemiPartitioned if bin < self.processors => {
                let k = (t - self.free_below[bin + 1]).rem_euclid(self.slot);
                (k < reserve).then_some(bin)
            }
            Kind::SemiPartitioned => {
                let start = self.starts[bin];
                let k = (t - start).rem_euclid(self.slot);
                (k < reserve).then(|| self.processor_with_free(start + k))
            }
            Kind::Dedicated => Some(bin),
        }
    }

    /// The processor whose free time holds this position of the free line.
    fn processor_with_free(&self, position: i64) -> usize {
        (0..self.processors)
            .find(|&q| self.free_below[q] <= position && position < self.free_below[q + 1])
            .expect("reserves that go in leave room for every placed bin")
    }
}
