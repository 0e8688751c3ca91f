//! The dispatcher: requests, dones and ticks on a planned task table.

use crate::layout::{Layout, CLOCK_END};
use crate::plan::{Plan, Task};

#[derive(Clone, Copy, Debug)]
struct Job {
    deadline: u64,
    budget_left: u32,
}

#[derive(Clone, Debug)]
struct TaskState {
    budget: u32,
    period: u64,
    /// The earliest clock at which a request is accepted.
    next_request: u64,
    /// Present as long as the job is unfinished.
    job: Option<Job>,
}

#[derive(Clone, Debug)]
pub struct Runner {
    clock: u64,
    layout: Layout,
    tasks: Vec<TaskState>,
    /// The task numbers of each bin, ascending.
    bins: Vec<Vec<usize>>,
}

impl Runner {
    pub fn start(tasks: &[Task], plan: &Plan, layout: Layout) -> Runner {
        Runner {
            clock: 0,
            layout,
            tasks: tasks
                .iter()
                .map(|task| TaskState {
                    budget: task.budget,
                    period: u64::from(task.period),
                    next_request: 0,
                    job: None,
                })
                .collect(),
            bins: plan.bins.iter().map(|bin| bin.tasks.clone()).collect(),
        }
    }

    pub fn clock(&self) -> u64 {
        self.clock
    }

    pub fn request(&mut self, task: usize) -> Result<(), u8> {
        let clock = self.clock;
        let state = self.tasks.get_mut(task).ok_or(6)?;
        if clock < state.next_request {
            return Err(22);
        }
        // What the method is for: the job before has met its deadline.
        debug_assert!(state.job.is_none(), "task {task} is late at {clock}");
        state.next_request = clock + state.period;
        state.job = Some(Job {
            deadline: clock + state.period,
            budget_left: state.budget,
        });
        Ok(())
    }

    pub fn done(&mut self, task: usize) -> Result<(), u8> {
        let state = self.tasks.get_mut(task).ok_or(6)?;
        match state.job.take() {
            Some(_) => Ok(()),
            None => Err(23),
        }
    }

    /// Runs one tick. The answer has the running task of every processor.
    pub fn tick(&mut self) -> Result<Vec<Option<usize>>, u8> {
        if self.clock >= CLOCK_END {
            return Err(24);
        }
        let mut row = vec![None; self.layout.processors()];
        for bin in 0..self.bins.len() {
            let Some(processor) = self.layout.serve(self.clock, bin) else {
                continue;
            };
            let Some(task) = self.first_unfinished(bin) else {
                continue;
            };
            debug_assert!(row[processor].is_none(), "two bins on one processor");
            row[processor] = Some(task);
            self.spend(task);
        }
        self.clock += 1;
        Ok(row)
    }

    /// The bin's task whose unfinished job has the earliest deadline, the
    /// lowest numbered one of several.
    fn first_unfinished(&self, bin: usize) -> Option<usize> {
        self.bins[bin]
            .iter()
            .filter_map(|&task| self.tasks[task].job.map(|job| (job.deadline, task)))
            .min()
            .map(|(_, task)| task)
    }

    /// Takes a tick off the budget of the task's job, which ends with the last.
    fn spend(&mut self, task: usize) {
        let slot = &mut self.tasks[task].job;
        if let Some(job) = slot {
            job.budget_left -= 1;
            if job.budget_left == 0 {
                *slot = None;
            }
        }
    }
}

#[cfg(test)]
mod tests {
    use super::*;
    use crate::layout::Kind;
    use crate::plan::close;

    fn runner_at(clock: u64) -> Runner {
        let task = Task {
            budget: 2,
            period: 3,
            name: b"a".to_vec(),
        };
        let tasks = [task];
        let plan = close(&tasks, 1, 1).unwrap();
        let layout = Layout::make(Kind::Dedicated, &plan).unwrap();
        let mut runner = Runner::start(&tasks, &plan, layout);
        runner.clock = clock;
        runner
    }

    // No file of bearable size gets this far.
    #[test]
    fn clock_ends_at_a_thousand_million() {
        let mut runner = runner_at(999_999_998);
        assert_eq!(runner.request(0), Ok(()));
        assert_eq!(runner.tick(), Ok(vec![Some(0)]));
        assert_eq!(runner.tick(), Ok(vec![Some(0)]));
        assert_eq!(runner.tick(), Err(24));
        assert_eq!(runner.clock(), 1_000_000_000);
        assert_eq!(runner.request(0), Err(22));
        assert_eq!(runner.done(0), Err(23));
    }

    #[test]
    fn requests_and_dones_are_taken_at_the_end_of_the_clock() {
        let mut runner = runner_at(1_000_000_000);
        assert_eq!(runner.request(0), Ok(()));
        assert_eq!(runner.request(0), Err(22));
        assert_eq!(runner.tick(), Err(24));
        assert_eq!(runner.done(0), Ok(()));
        assert_eq!(runner.done(0), Err(23));
    }
}
