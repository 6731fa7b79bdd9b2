//! The plan of document 01 on top of the Rust: limits, numbered refusals, load, update, first fit
//! and rows.

use std::ops::RangeInclusive;
use std::panic::catch_unwind;
use std::panic::AssertUnwindSafe;
use std::rc::Rc;

use crate::rules::Rules;
use crate::stand_ins::ArgTask;
use crate::stand_ins::CumulativeParameters;
use crate::stand_ins::Domains;
use crate::stand_ins::PropagatorConflict;
use crate::stand_ins::ResourceProfile;
use crate::stand_ins::StartVariable;
use crate::stand_ins::UpdatedTaskInfo;
use crate::time_table_over_interval_incremental::TimeTableOverIntervalIncrementalPropagator;
use crate::util::create_tasks;

type Propagator = TimeTableOverIntervalIncrementalPropagator<StartVariable>;
type Task = crate::stand_ins::Task<StartVariable>;

/// A refusal; its number in document 01 is its value.
#[derive(Clone, Copy, Debug, PartialEq, Eq)]
pub enum Refusal {
    TooManyJobs = 1,
    Capacity = 2,
    StartBound = 3,
    BoundsOrder = 4,
    Duration = 5,
    Usage = 6,
    UnknownTask = 7,
    TooManyRows = 8,
    Stale = 9,
    ShortSlice = 10,
    Unreadable = 11,
}

/// Why a call has no answer.
#[derive(Clone, Copy, Debug, PartialEq, Eq)]
pub enum Halt {
    /// Document 01 refuses the call.
    Refused(Refusal),
    /// The Rust panicked since the last accepted load, after a sweep with an event at -1.
    Lost,
}

impl From<Refusal> for Halt {
    fn from(refusal: Refusal) -> Self {
        Halt::Refused(refusal)
    }
}

/// The answer of an accepted load or update.
#[derive(Clone, Copy, Debug, PartialEq, Eq)]
pub enum Answer {
    Fits,
    Overloaded(PropagatorConflict),
}

/// The answer of an accepted load, and for each job its id, or none if it was dropped.
#[derive(Clone, Debug, PartialEq, Eq)]
pub struct Loaded {
    pub answer: Answer,
    pub ids: Vec<Option<u32>>,
}

/// A job as it is handed in.
#[derive(Clone, Copy, Debug)]
pub struct Job {
    pub earliest: i32,
    pub latest: i32,
    pub duration: i32,
    pub usage: i32,
}

/// A row as it is handed out.
#[derive(Clone, Debug, Default, PartialEq, Eq)]
pub struct RowRecord {
    pub start: i32,
    pub end: i32,
    pub height: i32,
    pub ids: Vec<u32>,
}

/// The tasks with their bounds, the capacity and the table.
#[derive(Clone)]
pub struct Plan {
    propagator: Propagator,
    /// The start bounds of every job of the last accepted load.
    bounds: Vec<(i32, i32)>,
    /// The Rust panicked since the last accepted load.
    lost: bool,
    /// No exception of document 01 since the last accepted load.
    within_plain_domain: bool,
}

impl Plan {
    /// The most jobs of a load.
    pub const JOBS: usize = 32;
    /// The most rows of a table.
    pub const ROWS: usize = 128;
    /// The start bounds that are allowed.
    pub const STARTS: RangeInclusive<i32> = -1_000_000_000..=1_000_000_000;
    /// The durations that are allowed.
    pub const DURATIONS: RangeInclusive<i32> = 0..=1_000_000_000;
    /// The usages that are allowed.
    pub const USAGES: RangeInclusive<i32> = 0..=1_000_000;
    /// The capacities that are allowed.
    pub const CAPACITIES: RangeInclusive<i32> = 0..=1_000_000_000;

    /// A plan without tasks, with capacity 0 and a live, empty table.
    pub fn fresh(rules: Rules) -> Self {
        let mut propagator = Propagator::new(CumulativeParameters::new(Vec::new(), 0, rules));
        propagator.is_time_table_outdated = false;
        Plan {
            propagator,
            bounds: Vec::new(),
            lost: false,
            within_plain_domain: true,
        }
    }

    /// Replaces the plan by these jobs and sweeps.
    pub fn load(&mut self, jobs: &[Job], capacity: i32) -> Result<Loaded, Halt> {
        let negative = jobs.iter().any(|job| job.duration < 0 || job.usage < 0);
        self.within_plain_domain &= !negative;
        let rules = self.rules();
        check_load(jobs, capacity, rules)?;

        let tasks = create_tasks(&arg_tasks(jobs));
        let mut ids = vec![None; jobs.len()];
        for task in &tasks {
            ids[task.start_variable.0] = Some(task.id.unpack());
        }
        self.propagator = Propagator::new(CumulativeParameters::new(tasks, capacity, rules));
        self.bounds = jobs.iter().map(|job| (job.earliest, job.latest)).collect();
        self.lost = false;
        self.within_plain_domain = !negative && !self.has_event_at_minus_one();
        let answer = self.run()?;
        Ok(Loaded { answer, ids })
    }

    /// Gives the task new start bounds.
    pub fn update(&mut self, id: i32, earliest: i32, latest: i32) -> Result<Answer, Halt> {
        let task = self.task(id)?;
        check_bounds(earliest, latest)?;
        if self.lost {
            return Err(Halt::Lost);
        }
        if self.has_heavy_task() {
            self.within_plain_domain = false;
        }
        if self.is_stale() {
            self.bounds[task.start_variable.0] = (earliest, latest);
            self.within_plain_domain &= !self.has_event_at_minus_one();
            return self.run();
        }
        self.update_live(task, earliest, latest)
    }

    /// Applies the parts of an update to a live table, or leaves all as it was and refuses.
    fn update_live(&mut self, task: Rc<Task>, earliest: i32, latest: i32) -> Result<Answer, Halt> {
        let before = self.rules().rows.then(|| self.clone());
        let bounds = &mut self.bounds[task.start_variable.0];
        let (old_lower_bound, old_upper_bound) = *bounds;
        *bounds = (earliest, latest);
        self.propagator.updated = Some(UpdatedTaskInfo {
            task,
            old_lower_bound,
            old_upper_bound,
            new_lower_bound: earliest,
            new_upper_bound: latest,
        });
        self.propagator.most_rows = 0;
        let mut answer = self.run();
        if self.propagator.most_rows > Plan::ROWS {
            if let Some(before) = before {
                *self = before;
                answer = Err(Refusal::TooManyRows.into());
            }
            self.within_plain_domain = false;
        }
        answer
    }

    /// The least start within the task's bounds at which its run fits on top of the table.
    pub fn first_fit(&self, id: i32) -> Result<Option<i32>, Halt> {
        let task = self.task(id)?;
        let rows = self.live_rows()?;
        let room = self.propagator.parameters.capacity - task.resource_usage;
        if room < 0 {
            return Ok(None);
        }
        let (earliest, latest) = self.bounds[task.start_variable.0];
        let mut start = earliest;
        for row in rows {
            let meets_run = row.end >= start && row.start < start + task.processing_time;
            if meets_run && row.height > room {
                start = row.end + 1;
            }
            if start > latest {
                return Ok(None);
            }
        }
        Ok(Some(start))
    }

    /// Copies the rows to the lent slice and says how many there are.
    pub fn rows(&self, lent: &mut [RowRecord]) -> Result<usize, Halt> {
        let rows = self.live_rows()?;
        if lent.len() < rows.len() {
            return Err(Refusal::ShortSlice.into());
        }
        for (place, row) in lent.iter_mut().zip(rows) {
            *place = RowRecord {
                start: row.start,
                end: row.end,
                height: row.height,
                ids: row.profile_tasks.iter().map(|t| t.id.unpack()).collect(),
            };
        }
        Ok(rows.len())
    }

    /// How many rows the table has; a stale one has none.
    pub fn row_count(&self) -> usize {
        self.propagator.time_table.len()
    }

    /// The kept tasks in the order of their ids, with their current bounds.
    pub fn jobs(&self) -> Vec<Job> {
        let job = |task: &Rc<Task>| {
            let (earliest, latest) = self.bounds[task.start_variable.0];
            Job {
                earliest,
                latest,
                duration: task.processing_time,
                usage: task.resource_usage,
            }
        };
        self.propagator.parameters.tasks.iter().map(job).collect()
    }

    /// The table is stale: it has no rows, and the next update sweeps.
    pub fn is_stale(&self) -> bool {
        self.propagator.is_time_table_outdated
    }

    /// No exception of document 01 since the last accepted load: the plain Rust is the measure.
    pub fn is_within_plain_domain(&self) -> bool {
        self.within_plain_domain
    }

    /// The rules that the plan was made with.
    fn rules(&self) -> Rules {
        self.propagator.parameters.rules
    }

    /// The task with this id.
    fn task(&self, id: i32) -> Result<Rc<Task>, Refusal> {
        usize::try_from(id)
            .ok()
            .and_then(|place| self.propagator.parameters.tasks.get(place))
            .map(Rc::clone)
            .ok_or(Refusal::UnknownTask)
    }

    /// The rows of a table that is live.
    fn live_rows(&self) -> Result<&[ResourceProfile<StartVariable>], Halt> {
        if self.lost {
            Err(Halt::Lost)
        } else if self.is_stale() {
            Err(Refusal::Stale.into())
        } else {
            Ok(&self.propagator.time_table)
        }
    }

    /// Lets the Rust sweep or apply the update; a panic of it loses the plan.
    fn run(&mut self) -> Result<Answer, Halt> {
        let Plan {
            propagator, bounds, ..
        } = self;
        let update = || propagator.update_time_table(Domains::new(bounds));
        match catch_unwind(AssertUnwindSafe(update)) {
            Ok(Ok(())) => Ok(Answer::Fits),
            Ok(Err(row)) => Ok(Answer::Overloaded(row)),
            Err(_) => {
                self.lost = true;
                Err(Halt::Lost)
            }
        }
    }

    /// A sweep would meet an event at time -1.
    fn has_event_at_minus_one(&self) -> bool {
        self.jobs().iter().any(|job| {
            let end = job.earliest + job.duration;
            job.latest < end && (job.latest == -1 || end == -1)
        })
    }

    /// Some kept usage exceeds the capacity.
    fn has_heavy_task(&self) -> bool {
        let parameters = &self.propagator.parameters;
        let heavy = |task: &Rc<Task>| task.resource_usage > parameters.capacity;
        parameters.tasks.iter().any(heavy)
    }
}

/// The refusals of a load, in document 01's order.
fn check_load(jobs: &[Job], capacity: i32, rules: Rules) -> Result<(), Refusal> {
    if jobs.len() > Plan::JOBS {
        return Err(Refusal::TooManyJobs);
    }
    if !Plan::CAPACITIES.contains(&capacity) {
        return Err(Refusal::Capacity);
    }
    // The plain Rust drops what is negative, so only the upper end is left to check.
    let allowed = |amount: i32, range: RangeInclusive<i32>| {
        range.contains(&amount) || (amount < 0 && !rules.negative)
    };
    for job in jobs {
        check_bounds(job.earliest, job.latest)?;
        if !allowed(job.duration, Plan::DURATIONS) {
            return Err(Refusal::Duration);
        }
        if !allowed(job.usage, Plan::USAGES) {
            return Err(Refusal::Usage);
        }
    }
    Ok(())
}

/// The refusals of a pair of start bounds, in document 01's order.
fn check_bounds(earliest: i32, latest: i32) -> Result<(), Refusal> {
    if !Plan::STARTS.contains(&earliest) || !Plan::STARTS.contains(&latest) {
        Err(Refusal::StartBound)
    } else if earliest > latest {
        Err(Refusal::BoundsOrder)
    } else {
        Ok(())
    }
}

/// The jobs as the Rust takes them; it negates a usage, which the least i32 has no room for.
fn arg_tasks(jobs: &[Job]) -> Vec<ArgTask<StartVariable>> {
    let arg_task = |(place, job): (usize, &Job)| ArgTask {
        start_time: StartVariable(place),
        processing_time: job.duration,
        resource_usage: job.usage.max(-i32::MAX),
    };
    jobs.iter().enumerate().map(arg_task).collect()
}
