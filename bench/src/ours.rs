//! The static library: a script of numbers, and the time of a run.

use std::time::Duration;
use std::time::Instant;

use crate::sequence::Job;
use crate::sequence::Update;

extern "C" {
    fn pass_planner_run(
        script: *const i32,
        script_len: usize,
        answers: *mut i32,
        answers_len: usize,
    ) -> usize;
}

/// A script under construction.
#[derive(Clone, Default)]
pub struct Script(Vec<i32>);

impl Script {
    /// Keeps the jobs and loads them.
    pub fn load(&mut self, jobs: &[Job], capacity: i32) {
        for job in jobs {
            self.0
                .extend([1, job.earliest, job.latest, job.duration, job.usage]);
        }
        self.0.extend([2, capacity]);
    }

    /// Gives a task other bounds.
    pub fn update(&mut self, update: &Update) {
        self.0
            .extend([3, update.id, update.earliest, update.latest]);
    }

    /// Asks for the first fit of a task.
    pub fn first_fit(&mut self, id: i32) {
        self.0.extend([4, id]);
    }

    /// Asks for the rows.
    pub fn rows(&mut self) {
        self.0.push(5);
    }

    /// Runs the script and returns how many numbers its answers are.
    pub fn run(&self, answers: &mut [i32]) -> usize {
        // SAFETY: both pointers and lengths are those of live slices that do not overlap.
        unsafe {
            pass_planner_run(
                self.0.as_ptr(),
                self.0.len(),
                answers.as_mut_ptr(),
                answers.len(),
            )
        }
    }

    /// How long a run takes.
    pub fn time(&self, answers: &mut [i32]) -> Duration {
        let start = Instant::now();
        self.run(answers);
        start.elapsed()
    }
}
