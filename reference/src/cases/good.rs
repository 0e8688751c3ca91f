//! Files without a fault: task tables of many shapes, and runs on them.

use super::draft::{done, request, ticks, Draft};
use super::rng::Rng;
use crate::layout::Kind;
use crate::plan::{close, Task, MAX_TASKS};

const LONGEST_PERIOD: u64 = 1_000_000;

/// How much a case may hold.
pub struct Size {
    pub rows: usize,
    /// The clock at which the run ends, unless `call_bytes` end it first.
    pub ticks: u64,
    pub call_bytes: usize,
}

impl Size {
    /// For files that are to be damaged or cut at every offset.
    pub fn small(rng: &mut Rng) -> Size {
        Size {
            rows: rng.between(1, 5) as usize,
            ticks: rng.between(2, 60),
            call_bytes: rng.between(3, 60) as usize,
        }
    }

    /// For runs: mostly short ones, so that many fit in a comparison.
    pub fn of_run(rng: &mut Rng) -> Size {
        let ticks = match rng.below(1000) {
            0..500 => rng.between(20, 400),
            500..850 => rng.between(400, 2_500),
            850..995 => rng.between(2_500, 10_000),
            _ => rng.between(40_000, 150_000),
        };
        let call_bytes = match rng.below(100) {
            0..70 => rng.between(30, 6_000),
            70..97 => rng.between(6_000, 25_000),
            _ => 57_000,
        };
        Size {
            rows: MAX_TASKS,
            ticks,
            call_bytes: call_bytes as usize,
        }
    }
}

pub fn good(rng: &mut Rng, size: &Size) -> Draft {
    let delta = pick_delta(rng);
    let kind = *rng.pick(&Kind::ALL);
    let periods = Periods::pick(rng, delta, size.ticks);
    let share = Share::pick(rng);
    let rows = match rng.below(100) {
        0 => 0,
        1..12 => 1,
        12..55 => rng.between(2, 8),
        55..80 => rng.between(9, 20),
        80..94 => rng.between(21, 63),
        _ => 64,
    };
    let mut tasks = table(rng, size.rows.min(rows as usize), &periods, share);
    // Some tables stay too heavy for any number of processors.
    if rng.percent(90) {
        while processors_needed(&tasks, delta, kind) > 16 {
            tasks.pop();
        }
    }
    let m = pick_m(rng, processors_needed(&tasks, delta, kind));
    let mut draft = Draft::new(m, delta, kind.letter(), &tasks);
    if rng.percent(95) {
        draft.calls = calls(rng, &tasks, delta, size);
    }
    if rng.percent(25) {
        draft.notes_before = notes(rng);
    }
    if rng.percent(25) {
        draft.notes_after = notes(rng);
    }
    draft
}

/// A good file with more bins than processors, so that bins move between
/// processors within a slot.
pub fn split(rng: &mut Rng, size: &Size) -> Draft {
    loop {
        let delta = rng.between(1, 16) as u8;
        let kind = *rng.pick(&[Kind::Flat, Kind::SemiPartitioned]);
        let low = u64::from(delta) * rng.scaled(5, 200);
        let periods = match rng.below(3) {
            0 => Periods::Equal(low),
            1 => Periods::Harmonic(low, 3),
            _ => Periods::Between(low, 3 * low),
        };
        let rows = rng.between(3, 30) as usize;
        let tasks = table(rng, rows, &periods, Share::Half);
        let bins = processors_needed(&tasks, delta, Kind::Dedicated);
        let m = processors_needed(&tasks, delta, kind);
        if m <= 16 && m < bins {
            let mut draft = Draft::new(m as u8, delta, kind.letter(), &tasks);
            draft.calls = calls(rng, &tasks, delta, size);
            return draft;
        }
    }
}

/// A good file with one processor too few for its layout, or just enough.
pub fn tight(rng: &mut Rng) -> Draft {
    let size = Size {
        rows: rng.between(2, 40) as usize,
        ticks: rng.between(20, 300),
        call_bytes: rng.between(30, 600) as usize,
    };
    loop {
        let mut draft = good(rng, &size);
        let tasks: Vec<Task> = draft
            .rows
            .iter()
            .map(|row| Task {
                budget: row.budget,
                period: row.period,
                name: row.name.clone(),
            })
            .collect();
        draft.delta = draft.delta.clamp(1, 16);
        let kind = Kind::from_letter(draft.layout).expect("a good letter");
        let needed = processors_needed(&tasks, draft.delta, kind);
        if (2..=17).contains(&needed) {
            let enough = needed <= 16 && rng.percent(30);
            draft.m = (if enough { needed } else { needed - 1 }) as u8;
            return draft;
        }
    }
}

fn pick_delta(rng: &mut Rng) -> u8 {
    match rng.below(100) {
        0..30 => 1,
        30..60 => rng.between(2, 4) as u8,
        60..97 => rng.between(1, 16) as u8,
        _ => *rng.pick(&[0, 17, 18, 128, 255]),
    }
}

fn pick_m(rng: &mut Rng, needed: u64) -> u8 {
    let needed = needed.min(16);
    let m = match rng.below(100) {
        0..50 => needed,
        50..75 => rng.between(needed, 16),
        75..86 => needed.saturating_sub(1).max(1),
        86..97 => rng.between(1, 16),
        _ => *rng.pick(&[0, 17, 18, 128, 255]),
    };
    m as u8
}

/// The least m with which the layout takes the tasks; 1 if delta or the table
/// rule every plan out.
fn processors_needed(tasks: &[Task], delta: u8, kind: Kind) -> u64 {
    match close(tasks, 1, delta) {
        Err(_) => 1,
        Ok(plan) => match kind {
            Kind::Dedicated => plan.bins.len() as u64,
            Kind::Flat | Kind::SemiPartitioned => {
                let total: u64 = plan.bins.iter().map(|bin| bin.reserve).sum();
                total.div_ceil(plan.slot)
            }
        },
    }
}

fn table(rng: &mut Rng, rows: usize, periods: &Periods, share: Share) -> Vec<Task> {
    (0..rows)
        .map(|_| {
            let period = periods.one(rng);
            let budget = share.budget(rng, period);
            Task {
                budget: budget as u32,
                period: period as u32,
                name: name(rng),
            }
        })
        .collect()
}

fn name(rng: &mut Rng) -> Vec<u8> {
    let length = if rng.percent(50) {
        rng.between(1, 3)
    } else {
        rng.between(1, 16)
    };
    (0..length)
        .map(|_| match rng.below(20) {
            0 => 0x20,
            1 => 0x7E,
            _ => rng.between(0x20, 0x7E) as u8,
        })
        .collect()
}

enum Periods {
    Equal(u64),
    /// A base, doubled up to so many times.
    Harmonic(u64, u64),
    Between(u64, u64),
    /// As between, with short and long ones alike.
    Scaled(u64, u64),
}

impl Periods {
    fn pick(rng: &mut Rng, delta: u8, ticks: u64) -> Periods {
        // Periods below delta give no slot; now and then that is wanted.
        let floor = match rng.percent(96) {
            true => u64::from(delta).max(1),
            false => 1,
        };
        let ceiling = match rng.below(10) {
            0 => 8,
            1 => 20,
            2 | 3 => 60,
            4 => 200,
            5 | 6 => (ticks / 8).min(LONGEST_PERIOD),
            7 | 8 => (ticks / 2).min(LONGEST_PERIOD),
            _ => LONGEST_PERIOD,
        };
        let ceiling = ceiling.max(floor);
        let low = match rng.below(4) {
            0 => floor,
            1 => (2 * floor).min(ceiling),
            _ => rng.scaled(floor, ceiling),
        };
        match rng.below(8) {
            0 => Periods::Equal(low),
            1 | 2 => Periods::Harmonic(low, rng.between(1, 5)),
            3 => Periods::Between(low, (low + rng.between(1, 9)).min(LONGEST_PERIOD)),
            4 | 5 => Periods::Between(low, ceiling),
            _ => Periods::Scaled(low, ceiling),
        }
    }

    fn one(&self, rng: &mut Rng) -> u64 {
        match *self {
            Periods::Equal(period) => period,
            Periods::Harmonic(base, times) => (base << rng.between(0, times)).min(LONGEST_PERIOD),
            Periods::Between(low, high) => rng.between(low, high),
            Periods::Scaled(low, high) => rng.scaled(low, high),
        }
    }
}

/// What part of its period a task's budget takes.
#[derive(Clone, Copy)]
enum Share {
    Light,
    Any,
    Heavy,
    Whole,
    /// Just above or at a half: most bins then hold one task, and some of
    /// them have to be split among processors.
    Half,
    /// An even part, so that charges fill a bin exactly or miss it by a few.
    Part(u64),
    /// Each task another.
    Mixed,
}

impl Share {
    fn pick(rng: &mut Rng) -> Share {
        match rng.below(20) {
            0..4 => Share::Light,
            4..7 => Share::Any,
            7 => Share::Heavy,
            8 => Share::Whole,
            9..14 => Share::Half,
            14..17 => Share::Part(rng.between(2, 8)),
            _ => Share::Mixed,
        }
    }

    fn budget(self, rng: &mut Rng, period: u64) -> u64 {
        let budget = match self {
            Share::Light => rng.between(1, (period / 15).max(1)),
            Share::Any => rng.between(1, period),
            Share::Heavy => period - rng.below(period / 8 + 1),
            Share::Whole => period,
            Share::Half => period / 2 + rng.below(period / 5 + 2),
            Share::Part(part) => period / part + u64::from(rng.percent(20)),
            Share::Mixed => return Share::pick(rng).budget(rng, period),
        };
        budget.clamp(1, period)
    }
}

fn notes(rng: &mut Rng) -> Vec<Vec<u8>> {
    (0..rng.between(1, 3))
        .map(|_| {
            let length = if rng.percent(20) {
                0
            } else {
                rng.between(1, 40)
            };
            let mut note = rng.bytes(length as usize);
            // Something that would be a section, were it read.
            if rng.percent(30) {
                note.extend(b"T\x00\x00C\x00\x00");
            }
            note
        })
        .collect()
}

/// Calls with the clock that they lead to.
struct Script {
    calls: Vec<Vec<u8>>,
    bytes: usize,
    clock: u64,
    periods: Vec<u64>,
    /// The clock at which each task's next request is accepted.
    earliest: Vec<u64>,
}

impl Script {
    fn new(tasks: &[Task]) -> Script {
        Script {
            calls: Vec::new(),
            bytes: 0,
            clock: 0,
            periods: tasks.iter().map(|task| u64::from(task.period)).collect(),
            earliest: vec![0; tasks.len()],
        }
    }

    fn push(&mut self, call: Vec<u8>) {
        self.bytes += call.len();
        self.calls.push(call);
    }

    fn request(&mut self, task: usize) {
        if task < self.earliest.len() && self.clock >= self.earliest[task] {
            self.earliest[task] = self.clock + self.periods[task];
        }
        self.push(request(task as u8));
    }

    fn ticks(&mut self, mut count: u64) {
        self.clock += count;
        while count > 0 {
            let part = count.min(65_535);
            self.push(ticks(part as u16));
            count -= part;
        }
    }
}

fn calls(rng: &mut Rng, tasks: &[Task], delta: u8, size: &Size) -> Vec<Vec<u8>> {
    let mut script = Script::new(tasks);
    if tasks.is_empty() || rng.percent(6) {
        random_calls(rng, &mut script, size);
    } else {
        periodic_calls(rng, &mut script, delta, size);
    }
    script.calls
}

/// Calls without any plan behind them.
fn random_calls(rng: &mut Rng, script: &mut Script, size: &Size) {
    let tasks = script.periods.len() as u64;
    while script.clock < size.ticks && script.bytes < size.call_bytes {
        let task = if rng.percent(90) {
            rng.below(tasks + 1)
        } else {
            rng.below(256)
        };
        match rng.below(10) {
            0..4 => script.request(task as usize),
            4..6 => script.push(done(task as u8)),
            _ => {
                let left = size.ticks - script.clock;
                let count = rng.scaled(1, 64).min(left);
                script.ticks(count);
            }
        }
    }
}

/// Requests that come as early as they are accepted, or at times somewhat
/// later or too early, over as many slots as the size allows.
fn periodic_calls(rng: &mut Rng, script: &mut Script, delta: u8, size: &Size) {
    let tasks = script.periods.len();
    let shortest = *script.periods.iter().min().expect("there are tasks");
    let slot = (shortest / u64::from(delta).max(1)).max(1);
    // How often, in percent, something other than an earliest request comes.
    let seldom = [0, 0, 0, 3, 10, 40];
    let late = *rng.pick(&seldom);
    let early = *rng.pick(&seldom);
    let ended = *rng.pick(&seldom);
    let stray = *rng.pick(&[0, 0, 2, 10]);
    let split = *rng.pick(&seldom);
    let descending = rng.percent(30);

    // All at once at some place of the slot, or each at its own time.
    let phase = match rng.below(3) {
        0 => 0,
        1 => rng.below(slot),
        _ => rng.below(2 * slot),
    };
    script.ticks(phase.min(size.ticks));
    let scattered = rng.percent(30);
    let mut planned: Vec<u64> = (0..tasks)
        .map(|task| match scattered {
            true => script.clock + rng.below(script.periods[task].min(size.ticks / 4 + 1)),
            false => script.clock,
        })
        .collect();

    while script.clock < size.ticks && script.bytes < size.call_bytes {
        for place in 0..tasks {
            let task = if descending { tasks - 1 - place } else { place };
            if planned[task] <= script.clock {
                script.request(task);
                planned[task] = script.earliest[task];
                if rng.percent(late) {
                    planned[task] += rng.scaled(1, script.periods[task]);
                }
            }
        }
        if rng.percent(ended) {
            let task = rng.index(tasks);
            script.push(done(task as u8));
        }
        if rng.percent(stray) {
            let task = rng.below(tasks as u64 + 2) as usize;
            if rng.percent(50) {
                script.request(task);
            } else {
                script.push(done(task as u8));
            }
        }

        let next = (0..tasks).min_by_key(|&task| planned[task]);
        let next = next.expect("there are tasks");
        let gap = planned[next].min(size.ticks).saturating_sub(script.clock);
        let step = if gap > 1 && rng.percent(split) {
            rng.between(1, gap)
        } else {
            gap.max(1)
        };
        if rng.percent(early) {
            // A tick too soon, unless the request was to come late anyway.
            script.ticks(step - 1);
            script.request(next);
            script.ticks(1);
        } else {
            script.ticks(step);
        }
    }
}
