//! The sequences that both sides run: tables of about so many rows, and updates that leave them so.

/// A job.
#[derive(Clone, Copy)]
pub struct Job {
    pub earliest: i32,
    pub latest: i32,
    pub duration: i32,
    pub usage: i32,
}

/// An update of a task's bounds.
#[derive(Clone, Copy)]
pub struct Update {
    pub id: i32,
    pub earliest: i32,
    pub latest: i32,
}

/// What every sequence is loaded with.
pub const CAPACITY: i32 = 1_000;
/// From the start of one job of a staircase to that of the next.
const STEP: i32 = 20;
/// How long such a job runs, so that it overlaps the next one.
const RUN: i32 = 30;

/// Jobs in a staircase, each overlapping the next: 2n - 1 rows for n jobs.
pub fn staircase(jobs: i32) -> Vec<Job> {
    let job = |i| Job {
        earliest: i * STEP,
        latest: i * STEP,
        duration: RUN,
        usage: 3,
    };
    (0..jobs).map(job).collect()
}

/// A staircase, and a job that is too long to fit beside one stair alone, and with two is too much.
pub fn asking(stairs: i32) -> Vec<Job> {
    let mut jobs = staircase(stairs);
    jobs.push(Job {
        earliest: 0,
        latest: 100_000,
        duration: RUN,
        usage: 2,
    });
    jobs
}

/// A staircase, and two jobs more that need not run anywhere and draw less, so that their ids follow: one
/// to be moved, and one to cut rows.
pub struct Table {
    pub stairs: i32,
    pub jobs: Vec<Job>,
    pub cuts: Vec<Update>,
}

impl Table {
    /// A table of about so many rows.
    pub fn of_rows(rows: i32) -> Table {
        let stairs = ((rows + 1) / 2).clamp(2, 30);
        let mut jobs = staircase(stairs);
        for (duration, usage) in [(4, 2), (1, 1)] {
            jobs.push(Job {
                earliest: 0,
                latest: 100_000,
                duration,
                usage,
            });
        }
        // A cut in the middle of what one job covers alone makes three rows of one.
        let cuts = (rows - (2 * stairs - 1)).max(0) / 2;
        let cut = |i| Update {
            id: stairs + 1,
            earliest: i * STEP + 15,
            latest: i * STEP + 15,
        };
        Table {
            stairs,
            jobs,
            cuts: (0..cuts).map(|i| cut(stairs - 1 - i)).collect(),
        }
    }

    /// The mover at an instant, for its whole run.
    fn moved(&self, start: i32) -> Update {
        Update {
            id: self.stairs,
            earliest: start,
            latest: start,
        }
    }

    /// Two updates that move a whole part from one place to another and back.
    pub fn moves(&self) -> [Update; 2] {
        let stair = |i: i32| i * STEP + 11;
        [self.moved(stair(0)), self.moved(stair(self.stairs / 2))]
    }

    /// Two updates that move a part by one instant and back.
    pub fn nudges(&self) -> [Update; 2] {
        let start = (self.stairs / 2) * STEP + 11;
        [self.moved(start), self.moved(start + 1)]
    }
}
