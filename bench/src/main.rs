//! The static library against the Rust that it is ported from: the same sequences to both, in one run.

mod ours;
mod sequence;
mod theirs;

use std::hint::black_box;
use std::time::Duration;
use std::time::Instant;

use oracle::plan;
use oracle::rules::Rules;

use ours::Script;
use sequence::Job;
use sequence::Table;
use sequence::Update;
use sequence::CAPACITY;
use theirs::Original;

/// How often an operation stands in one timed run, and how many runs there are of each side.
const OPERATIONS: usize = 1_000;
const RUNS: usize = 101;

/// Nanoseconds of one operation on both sides.
struct Times {
    ours: f64,
    theirs: f64,
}

impl Times {
    fn print(&self, case: &str) {
        let ratio = self.ours / self.theirs;
        println!(
            "| {case} | {:.0} | {:.0} | {ratio:.2} |",
            self.ours, self.theirs
        );
    }
}

/// The median of the nanoseconds that one of so many operations takes.
fn median(mut times: Vec<Duration>, operations: usize) -> f64 {
    times.sort();
    times[times.len() / 2].as_nanos() as f64 / operations as f64
}

/// Alternates runs of both sides. Our script is timed with and without the operations, and theirs is the
/// operations alone.
fn race(start: &Script, whole: &Script, operations: usize, mut theirs: impl FnMut()) -> Times {
    let mut answers = vec![0; 20 * OPERATIONS];
    let (mut with, mut without, mut other) = (Vec::new(), Vec::new(), Vec::new());
    for _ in 0..RUNS {
        without.push(start.time(&mut answers));
        with.push(whole.time(&mut answers));
        let begin = Instant::now();
        theirs();
        other.push(begin.elapsed());
    }
    Times {
        ours: median(with, operations) - median(without, operations),
        theirs: median(other, operations),
    }
}

/// A script that makes a table and applies the first updates, so that later ones leave its rows as many.
fn made(table: &Table, pair: &[Update; 2]) -> (Script, Original) {
    let mut script = Script::default();
    script.load(&table.jobs, CAPACITY);
    let mut original = Original::load(&table.jobs, CAPACITY);
    for update in table.cuts.iter().chain(pair).chain(pair) {
        script.update(update);
        assert!(original.update(update));
    }
    (script, original)
}

/// The rows after a script are those of the original; returns how many there are.
fn agree(script: &Script, original: &Original) -> i32 {
    let mut script = script.clone();
    script.rows();
    let mut answers = vec![0; 20 * OPERATIONS];
    let written = script.run(&mut answers);
    let rows = original.rows();
    assert_eq!(answers[written - rows.len()..written], rows);
    rows[1]
}

/// Updates back and forth in a table of about so many rows; returns how many there are.
fn updates(rows: i32, pair: impl Fn(&Table) -> [Update; 2]) -> (i32, Times) {
    let table = Table::of_rows(rows);
    let pair = pair(&table);
    let (start, mut original) = made(&table, &pair);
    let mut whole = start.clone();
    for _ in 0..OPERATIONS / 2 {
        pair.iter().for_each(|update| whole.update(update));
    }
    let times = race(&start, &whole, OPERATIONS, || {
        for _ in 0..OPERATIONS / 2 {
            for update in &pair {
                black_box(original.update(update));
            }
        }
    });
    (agree(&whole, &original), times)
}

/// Loads of a staircase of so many jobs.
fn loads(jobs: i32) -> Times {
    let jobs = sequence::staircase(jobs);
    let mut whole = Script::default();
    (0..OPERATIONS).for_each(|_| whole.load(&jobs, CAPACITY));
    agree(&whole, &Original::load(&jobs, CAPACITY));
    race(&Script::default(), &whole, OPERATIONS, || {
        for _ in 0..OPERATIONS {
            black_box(Original::load(&jobs, CAPACITY));
        }
    })
}

/// Questions for the first fit of a task that fits nowhere before the last of about so many rows.
fn first_fits(rows: i32) -> (usize, Times) {
    let jobs = sequence::asking((rows + 1) / 2);
    let asking = jobs.len() as i32 - 1;
    let capacity = jobs[0].usage * 2;
    let mut start = Script::default();
    start.load(&jobs, capacity);
    let mut whole = start.clone();
    (0..OPERATIONS).for_each(|_| whole.first_fit(asking));
    let given: Vec<plan::Job> = jobs.iter().map(as_given).collect();
    let mut plan = plan::Plan::fresh(Rules::PLAIN);
    plan.load(&given, capacity).expect("within the limits");
    let mut answers = vec![0; 20 * OPERATIONS];
    let written = whole.run(&mut answers);
    let fit = plan.first_fit(asking).expect("a live table");
    assert_eq!(Some(answers[written - 1]), fit);
    let times = race(&start, &whole, OPERATIONS, || {
        for _ in 0..OPERATIONS {
            let _ = black_box(plan.first_fit(black_box(asking)));
        }
    });
    (plan.row_count(), times)
}

/// What a command costs that is refused at its first check: reading it, and handing the plan on.
fn refused() -> f64 {
    let table = Table::of_rows(60);
    let (start, _) = made(&table, &table.moves());
    let mut whole = start.clone();
    let unknown = Update {
        id: -1,
        earliest: 0,
        latest: 0,
    };
    (0..OPERATIONS).for_each(|_| whole.update(&unknown));
    race(&start, &whole, OPERATIONS, || ()).ours
}

fn as_given(job: &Job) -> plan::Job {
    plan::Job {
        earliest: job.earliest,
        latest: job.latest,
        duration: job.duration,
        usage: job.usage,
    }
}

fn main() {
    println!("| case | ours, ns | Rust, ns | ratio |");
    println!("|---|---|---|---|");
    for rows in [20, 60, 110] {
        let (count, times) = updates(rows, Table::moves);
        times.print(&format!("an update that moves a whole part, {count} rows"));
        let (count, times) = updates(rows, Table::nudges);
        times.print(&format!("an update that nudges it by one, {count} rows"));
    }
    loads(8).print("a load of 8 jobs");
    loads(32).print("a load of 32 jobs");
    let (count, times) = first_fits(60);
    times.print(&format!("a first fit, {count} rows"));
    println!("| a refused update | {:.0} | | |", refused());
    println!();
    println!("| rows | a move: ours, ns | Rust, ns | a nudge: ours, ns | Rust, ns |");
    println!("|---|---|---|---|---|");
    for rows in (10..=120).step_by(10) {
        let (count, moved) = updates(rows, Table::moves);
        let (_, nudged) = updates(rows, Table::nudges);
        println!(
            "| {count} | {:.0} | {:.0} | {:.0} | {:.0} |",
            moved.ours, moved.theirs, nudged.ours, nudged.theirs
        );
    }
}
