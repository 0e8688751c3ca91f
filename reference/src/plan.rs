//! From a task table to bins, slot and reserves.

/// A bin that is entirely filled has this load.
pub const FULL_LOAD: u64 = 1_000_000;

pub const MAX_PERIOD: u32 = 1_000_000;
pub const MAX_TASKS: usize = 64;

#[derive(Clone, Debug, PartialEq, Eq)]
pub struct Task {
    pub budget: u32,
    pub period: u32,
    pub name: Vec<u8>,
}

impl Task {
    /// The task's share of a processor in millionths. Rounding up keeps the
    /// sum of a bin's charges from hiding a real overload.
    pub fn charge(&self) -> u64 {
        (u64::from(self.budget) * FULL_LOAD).div_ceil(u64::from(self.period))
    }
}

#[derive(Clone, Debug, PartialEq, Eq)]
pub struct Bin {
    /// Task numbers, ascending.
    pub tasks: Vec<usize>,
    pub load: u64,
    /// Ticks of each slot in which the bin is served.
    pub reserve: u64,
}

#[derive(Clone, Debug, PartialEq, Eq)]
pub struct Plan {
    pub processors: usize,
    pub shortest_period: u64,
    pub slot: u64,
    pub bins: Vec<Bin>,
}

/// Makes the plan of a table, or answers the verdict that rules it out.
pub fn close(tasks: &[Task], m: u8, delta: u8) -> Result<Plan, u8> {
    if !(1..=16).contains(&m) {
        return Err(4);
    }
    if !(1..=16).contains(&delta) {
        return Err(5);
    }
    let delta = u64::from(delta);
    let Some(shortest_period) = tasks.iter().map(|task| u64::from(task.period)).min() else {
        return Err(25);
    };
    if shortest_period < delta {
        return Err(26);
    }

    let slot = shortest_period / delta;
    let mut bins = first_fit(tasks);
    for bin in &mut bins {
        bin.reserve = reserve(slot, delta, bin.load);
    }
    Ok(Plan {
        processors: usize::from(m),
        shortest_period,
        slot,
        bins,
    })
}

fn first_fit(tasks: &[Task]) -> Vec<Bin> {
    let mut bins: Vec<Bin> = Vec::new();
    for (number, task) in tasks.iter().enumerate() {
        let charge = task.charge();
        match bins.iter_mut().find(|bin| bin.load + charge <= FULL_LOAD) {
            Some(bin) => {
                bin.tasks.push(number);
                bin.load += charge;
            }
            None => bins.push(Bin {
                tasks: vec![number],
                load: charge,
                reserve: 0,
            }),
        }
    }
    bins
}

fn reserve(slot: u64, delta: u64, load: u64) -> u64 {
    (slot * (delta + 1) * load).div_ceil(load + delta * FULL_LOAD)
}
