//! The Rust original: its tasks, its sweep and its update of a table, on a vector of rows.

use std::rc::Rc;

use oracle::rules::Rules;
use oracle::stand_ins::ArgTask;
use oracle::stand_ins::CumulativeParameters;
use oracle::stand_ins::Domains;
use oracle::stand_ins::StartVariable;
use oracle::stand_ins::UpdatedTaskInfo;
use oracle::time_table_over_interval_incremental::TimeTableOverIntervalIncrementalPropagator;
use oracle::util::create_tasks;

use crate::sequence::Job;
use crate::sequence::Update;

/// The propagator's table, and the bounds that it reads.
pub struct Original {
    propagator: TimeTableOverIntervalIncrementalPropagator<StartVariable>,
    bounds: Vec<(i32, i32)>,
}

impl Original {
    /// The tasks of these jobs, swept.
    pub fn load(jobs: &[Job], capacity: i32) -> Original {
        let tasks: Vec<_> = jobs
            .iter()
            .enumerate()
            .map(|(place, job)| ArgTask {
                start_time: StartVariable(place),
                processing_time: job.duration,
                resource_usage: job.usage,
            })
            .collect();
        let parameters = CumulativeParameters::new(create_tasks(&tasks), capacity, Rules::PLAIN);
        let mut original = Original {
            propagator: TimeTableOverIntervalIncrementalPropagator::new(parameters),
            bounds: jobs.iter().map(|job| (job.earliest, job.latest)).collect(),
        };
        assert!(original.run());
        original
    }

    /// Gives a task other bounds, and says whether the rows fit.
    pub fn update(&mut self, update: &Update) -> bool {
        let task = Rc::clone(&self.propagator.parameters.tasks[update.id as usize]);
        let bounds = &mut self.bounds[task.start_variable.0];
        let (old_lower_bound, old_upper_bound) = *bounds;
        *bounds = (update.earliest, update.latest);
        self.propagator.updated = Some(UpdatedTaskInfo {
            task,
            old_lower_bound,
            old_upper_bound,
            new_lower_bound: update.earliest,
            new_upper_bound: update.latest,
        });
        self.run()
    }

    /// The rows as the library writes them.
    pub fn rows(&self) -> Vec<i32> {
        let table = &self.propagator.time_table;
        let mut numbers = vec![5, table.len() as i32];
        for row in table {
            numbers.extend([
                row.start,
                row.end,
                row.height,
                row.profile_tasks.len() as i32,
            ]);
            numbers.extend(row.profile_tasks.iter().map(|task| task.id.unpack() as i32));
        }
        numbers
    }

    fn run(&mut self) -> bool {
        let domains = Domains::new(&self.bounds);
        self.propagator.update_time_table(domains).is_ok()
    }
}
