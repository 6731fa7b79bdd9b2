//! The command program of document 01: lines of bytes in, lines of bytes out.

use std::io::Write;

use crate::plan::Answer;
use crate::plan::Halt;
use crate::plan::Job;
use crate::plan::Plan;
use crate::plan::Refusal;
use crate::plan::RowRecord;
use crate::rules::Rules;

/// The most bytes of a line, its line feed not counted.
const LINE: usize = 80;

/// A plan and the jobs kept for its next load.
pub struct Session {
    plan: Plan,
    jobs: Vec<Job>,
}

/// A line that could be read.
enum Command {
    Job(Job),
    Load(i32),
    Update(i32, i32, i32),
    FirstFit(i32),
    Table,
}

impl Session {
    /// A fresh plan and no jobs.
    pub fn new(rules: Rules) -> Self {
        Session {
            plan: Plan::fresh(rules),
            jobs: Vec::new(),
        }
    }

    /// The plan as it is now.
    pub fn plan(&self) -> &Plan {
        &self.plan
    }

    /// Carries out one line, given without its line feed, and appends what it prints.
    pub fn line(&mut self, line: &[u8], out: &mut Vec<u8>) {
        let done = match read(line) {
            Some(Command::Job(job)) => self.keep(job),
            Some(Command::Load(capacity)) => self.load(capacity).map(|answer| say(answer, out)),
            Some(Command::Update(id, earliest, latest)) => self
                .plan
                .update(id, earliest, latest)
                .map(|answer| say(answer, out)),
            Some(Command::FirstFit(id)) => self.plan.first_fit(id).map(|fit| say_fit(fit, out)),
            Some(Command::Table) => self.table(out),
            None => Err(Refusal::Unreadable.into()),
        };
        match done {
            Ok(()) => {}
            Err(Halt::Refused(refusal)) => print(out, format_args!("R {}", refusal as u8)),
            Err(Halt::Lost) => print(out, format_args!("X")),
        }
    }

    /// Keeps a job for the next load, if there is a place left.
    fn keep(&mut self, job: Job) -> Result<(), Halt> {
        if self.jobs.len() == Plan::JOBS {
            return Err(Refusal::TooManyJobs.into());
        }
        self.jobs.push(job);
        Ok(())
    }

    /// Loads the kept jobs and, accepted or not, empties the list.
    fn load(&mut self, capacity: i32) -> Result<Answer, Halt> {
        let jobs = std::mem::take(&mut self.jobs);
        self.plan.load(&jobs, capacity).map(|loaded| loaded.answer)
    }

    /// Prints the rows and their count.
    fn table(&self, out: &mut Vec<u8>) -> Result<(), Halt> {
        let mut lent = vec![RowRecord::default(); self.plan.row_count()];
        let count = self.plan.rows(&mut lent)?;
        for row in &lent[..count] {
            let ids: String = row.ids.iter().map(|id| format!(" {id}")).collect();
            print(
                out,
                format_args!("{} {} {}{}", row.start, row.end, row.height, ids),
            );
        }
        print(out, format_args!("E {count}"));
        Ok(())
    }
}

/// The lines of an input, each without its line feed, which the last may lack.
pub fn lines(input: &[u8]) -> impl Iterator<Item = &[u8]> {
    input
        .split_inclusive(|byte| *byte == b'\n')
        .map(|line| line.strip_suffix(b"\n").unwrap_or(line))
}

/// Prints the answer of a load or an update.
fn say(answer: Answer, out: &mut Vec<u8>) {
    match answer {
        Answer::Fits => print(out, format_args!("F")),
        Answer::Overloaded(row) => print(
            out,
            format_args!("O {} {} {}", row.start, row.end, row.height),
        ),
    }
}

/// Prints the answer of a first-fit question.
fn say_fit(fit: Option<i32>, out: &mut Vec<u8>) {
    match fit {
        Some(start) => print(out, format_args!("S {start}")),
        None => print(out, format_args!("N")),
    }
}

/// Appends one line.
fn print(out: &mut Vec<u8>, text: std::fmt::Arguments) {
    writeln!(out, "{text}").expect("a vector takes every byte");
}

/// Reads a line: a letter, then as many numbers as it asks for, single spaces between.
fn read(line: &[u8]) -> Option<Command> {
    if line.len() > LINE {
        return None;
    }
    let mut words = line.split(|byte| *byte == b' ');
    let letter = words.next()?;
    let numbers = words.map(number).collect::<Option<Vec<i32>>>()?;
    match (letter, numbers.as_slice()) {
        (b"J", &[earliest, latest, duration, usage]) => Some(Command::Job(Job {
            earliest,
            latest,
            duration,
            usage,
        })),
        (b"L", &[capacity]) => Some(Command::Load(capacity)),
        (b"U", &[id, earliest, latest]) => Some(Command::Update(id, earliest, latest)),
        (b"P", &[id]) => Some(Command::FirstFit(id)),
        (b"T", &[]) => Some(Command::Table),
        _ => None,
    }
}

/// Reads a decimal number: optional minus, 1 to 10 digits, within 32-bit signed range.
fn number(word: &[u8]) -> Option<i32> {
    let digits = word.strip_prefix(b"-").unwrap_or(word);
    if !(1..=10).contains(&digits.len()) || !digits.iter().all(u8::is_ascii_digit) {
        return None;
    }
    let size = digits
        .iter()
        .fold(0, |value: i64, digit| value * 10 + i64::from(digit - b'0'));
    i32::try_from(if digits.len() < word.len() {
        -size
    } else {
        size
    })
    .ok()
}
