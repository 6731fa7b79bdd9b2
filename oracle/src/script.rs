//! A session under construction, and the random steps that most shapes of sessions are made of.

use crate::command::Session;
use crate::plan::Job;
use crate::plan::Plan;
use crate::plan::RowRecord;
use crate::random::Random;
use crate::rules::Rules;

/// One past the greatest start bound, duration and capacity.
const PAST: i32 = 1_000_000_001;

/// Lines that can be read.
const READABLE: [&str; 7] = [
    "J 0 3 4 2",
    "J -5 -5 10 1",
    "L 7",
    "U 0 1 2",
    "P 0",
    "T",
    "U 1 -2147483648 2147483647",
];

/// Numbers and what is nearly one.
const NUMBERS: [&str; 10] = [
    "-0",
    "0000000007",
    "00000000007",
    "2147483648",
    "-2147483649",
    "+1",
    "--1",
    "-",
    "1e3",
    "12345678901234567890",
];

/// A range to draw from, both ends included.
pub type Span = (i32, i32);

/// How the capacity of a load follows from its jobs.
pub enum Capacity {
    /// This number.
    Exactly(i32),
    /// So many hundredths of all usages together.
    Percent(Span),
    /// The greatest usage and some of the rest, so that no job is too heavy alone.
    AtLeastGreatest,
}

/// What the loads and steps of a session are drawn from.
pub struct Style {
    pub loads: Span,
    pub jobs: Span,
    pub starts: Span,
    /// Latest less earliest start, where a job is to have a wide window.
    pub windows: Span,
    pub durations: Span,
    pub usages: Span,
    pub capacity: Capacity,
    pub steps: Span,
    /// One step in so many is a refused call or a line that can't be read; 0 is none.
    pub noise: usize,
    /// Lines that can't be read are among the noise.
    pub malformed: bool,
}

/// The lines so far and where they lead, so that the next ones can aim.
pub struct Script {
    pub random: Random,
    session: Session,
    text: Vec<u8>,
}

impl Script {
    /// No lines yet, and a fresh plan.
    pub fn new(random: Random) -> Self {
        Script {
            random,
            session: Session::new(Rules::REPAIRED),
            text: Vec::new(),
        }
    }

    /// The whole session, each line with its line feed.
    pub fn into_text(self) -> Vec<u8> {
        self.text
    }

    /// Adds a line, given without its line feed.
    pub fn line(&mut self, line: &[u8]) {
        self.session.line(line, &mut Vec::new());
        self.text.extend_from_slice(line);
        self.text.push(b'\n');
    }

    /// Adds a job to the next load.
    pub fn job(&mut self, earliest: i32, latest: i32, duration: i32, usage: i32) {
        self.line(format!("J {earliest} {latest} {duration} {usage}").as_bytes());
    }

    /// Loads the jobs added.
    pub fn load(&mut self, capacity: i32) {
        self.line(format!("L {capacity}").as_bytes());
    }

    /// Updates the bounds of a task.
    pub fn update(&mut self, id: usize, earliest: i32, latest: i32) {
        self.line(format!("U {id} {earliest} {latest}").as_bytes());
    }

    /// Updates the bounds of a task so that it must run from `from` up to but without `until`.
    pub fn lay(&mut self, id: usize, from: i32, until: i32) {
        let duration = self.tasks()[id].duration;
        self.update(id, until - duration, from);
    }

    /// Asks for the first fit of a task.
    pub fn first_fit(&mut self, id: usize) {
        self.line(format!("P {id}").as_bytes());
    }

    /// Asks for the rows.
    pub fn table(&mut self) {
        self.line(b"T");
    }

    /// The tasks of the plan, by id.
    pub fn tasks(&self) -> Vec<Job> {
        self.session.plan().jobs()
    }

    /// The rows of the plan; none if it is stale.
    pub fn rows(&self) -> Vec<RowRecord> {
        let mut rows = vec![RowRecord::default(); self.session.plan().row_count()];
        match self.session.plan().rows(&mut rows) {
            Ok(_) => rows,
            Err(_) => Vec::new(),
        }
    }

    /// Loads and steps, all drawn from the style.
    pub fn wander(&mut self, style: &Style) {
        for _ in 0..self.random.between(style.loads) {
            let jobs = self.draw_jobs(style);
            for job in &jobs {
                self.job(job.earliest, job.latest, job.duration, job.usage);
            }
            let capacity = self.draw_capacity(style, &jobs);
            self.load(capacity);
            self.table();
            self.steps(style);
            self.table();
        }
    }

    /// Steps drawn from the style.
    pub fn steps(&mut self, style: &Style) {
        for _ in 0..self.random.between(style.steps) {
            if style.noise == 0 || !self.random.one_in(style.noise) {
                self.step(style);
            } else if style.malformed && self.random.one_in(8) {
                self.malformed();
            } else {
                self.refused_call();
            }
        }
    }

    /// An update, a first-fit question or a look at the rows.
    fn step(&mut self, style: &Style) {
        let tasks = self.tasks();
        if tasks.is_empty() {
            return self.table();
        }
        let id = self.random.below(tasks.len());
        match self.random.below(8) {
            0 | 1 => self.first_fit(id),
            2 => self.table(),
            _ => {
                let (earliest, latest) = self.draw_update(style, tasks[id]);
                self.update(id, earliest, latest);
            }
        }
    }

    /// The jobs of a load.
    fn draw_jobs(&mut self, style: &Style) -> Vec<Job> {
        let mut jobs = Vec::new();
        for _ in 0..self.random.between(style.jobs) {
            let duration = self.random.between(style.durations);
            let (earliest, latest) = self.draw_bounds(style, duration);
            let usage = self.random.between(style.usages);
            jobs.push(Job {
                earliest,
                latest,
                duration,
                usage,
            });
        }
        jobs
    }

    /// The capacity for a load.
    fn draw_capacity(&mut self, style: &Style, jobs: &[Job]) -> i32 {
        let total: i32 = jobs.iter().map(|job| job.usage).sum();
        let greatest = jobs.iter().map(|job| job.usage).max().unwrap_or(0);
        match style.capacity {
            Capacity::Exactly(capacity) => capacity,
            Capacity::Percent(percent) => {
                let share = i64::from(total) * i64::from(self.random.between(percent)) / 100;
                share as i32
            }
            Capacity::AtLeastGreatest => self.random.between((greatest, total)),
        }
    }

    /// Bounds that have nothing to do with what was before.
    fn draw_bounds(&mut self, style: &Style, duration: i32) -> (i32, i32) {
        let earliest = self.random.between(style.starts);
        let window = match self.random.below(4) {
            0 | 1 => 0,
            2 => self.random.between((0, duration)),
            _ => self.random.between(style.windows),
        };
        allowed(i64::from(earliest), i64::from(earliest) + i64::from(window))
    }

    /// New bounds for a task: drawn afresh, nudged, grown or shrunk at one end, touching the old
    /// part, from row border to row border, without a part, or the same again.
    fn draw_update(&mut self, style: &Style, task: Job) -> (i32, i32) {
        let duration = i64::from(task.duration);
        let (earliest, latest) = (i64::from(task.earliest), i64::from(task.latest));
        let small = |random: &mut Random| i64::from(random.between((-3, 3)));
        let within = |random: &mut Random| i64::from(random.between((0, task.duration)));
        match self.random.below(10) {
            0..=2 => self.draw_bounds(style, task.duration),
            3 => allowed(
                earliest + small(&mut self.random),
                latest + small(&mut self.random),
            ),
            4 => allowed(earliest, earliest + within(&mut self.random)),
            5 => allowed(latest - within(&mut self.random), latest),
            6 => allowed(earliest + duration, earliest + duration),
            7 => allowed(latest - duration, latest - duration),
            8 => self.draw_between_borders(task),
            _ => allowed(
                earliest,
                earliest + self.random.below(3) as i64 + duration - 1,
            ),
        }
    }

    /// Bounds whose part goes from one row border to another, where the duration allows it.
    fn draw_between_borders(&mut self, task: Job) -> (i32, i32) {
        let rows = self.rows();
        if rows.is_empty() {
            return (task.earliest, task.latest);
        }
        let from = i64::from(rows[self.random.below(rows.len())].start);
        let until = i64::from(rows[self.random.below(rows.len())].end) + 1;
        let duration = i64::from(task.duration);
        if from < until && until - from <= duration {
            allowed(until - duration, from)
        } else {
            allowed(from, from)
        }
    }

    /// A call that is refused.
    fn refused_call(&mut self) {
        let unknown = self.tasks().len();
        match self.random.below(7) {
            0 => self.update(unknown, 0, 0),
            1 => self.line(b"U -1 0 0"),
            2 => self.update(0, 5, 4),
            3 => self.update_out_of_range(),
            4 => self.first_fit(unknown),
            5 => self.line(b"P -1"),
            _ => self.refused_load(),
        }
    }

    /// An update with a bound out of range, in order or not.
    fn update_out_of_range(&mut self) {
        let bounds = [(0, PAST), (-PAST, 0), (PAST, 0), (0, -PAST), (PAST, PAST)];
        let (earliest, latest) = self.random.pick(&bounds);
        self.update(0, earliest, latest);
    }

    /// A load with a fault in one of its numbers.
    fn refused_load(&mut self) {
        let fault = self.random.below(6);
        let start = self.random.pick(&[-PAST, PAST]);
        let faulty = |place, fault_number, number| {
            if place == fault {
                fault_number
            } else {
                number
            }
        };
        self.job(0, 3, 2, 1);
        self.job(
            faulty(0, start, 0),
            faulty(1, -1, faulty(2, start, 3)),
            faulty(3, PAST, 2),
            faulty(4, 1_000_001, 1),
        );
        self.load(faulty(5, -1, 4));
    }

    /// A line that is near a readable one.
    pub fn malformed(&mut self) {
        let mut line = self.random.pick(&READABLE).as_bytes().to_vec();
        let odd = self.random.pick(b"\0\t\r -+.09xjltup\x7f\x80\xff");
        let place = self.random.below(line.len());
        let space = line.iter().position(|byte| *byte == b' ');
        match self.random.below(10) {
            0 => line.clear(),
            1 => line.insert(place, odd),
            2 => line[place] = odd,
            3 => line[space.unwrap_or(0)] = odd,
            4 => line.push(odd),
            5 => line.truncate(place),
            6 => line.extend(std::iter::repeat_n(b'0', 70 + self.random.below(15))),
            7 => line.make_ascii_lowercase(),
            8 => line.extend_from_slice(b" 1"),
            _ => {
                let number = self.random.pick(&NUMBERS);
                line = format!("{} {number}", self.random.pick(&["L", "P", "T"])).into_bytes();
            }
        }
        self.line(&line);
    }
}

/// The bounds nearest to these that are in range and in order.
fn allowed(earliest: i64, latest: i64) -> (i32, i32) {
    let clamp = |bound: i64| {
        let (low, high) = (*Plan::STARTS.start(), *Plan::STARTS.end());
        bound.clamp(i64::from(low), i64::from(high)) as i32
    };
    (clamp(earliest.min(latest)), clamp(earliest.max(latest)))
}
