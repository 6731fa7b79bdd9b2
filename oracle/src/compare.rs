//! Runs another program on random sessions and holds its output against the oracle's.

use std::io::Read;
use std::io::Write;
use std::process::Command;
use std::process::Stdio;
use std::sync::mpsc;
use std::thread;
use std::time::Duration;

use crate::command::lines;
use crate::command::Session;
use crate::generate::joined;
use crate::generate::sessions;
use crate::generate::RESET;
use crate::rules::Rules;
use crate::shapes::Shape;

/// How many sessions one run of the other program gets.
const BATCH: u64 = 100;
/// How long one run of the other program may take.
const PATIENCE: Duration = Duration::from_secs(300);
/// After so many sessions with a difference the comparison ends.
const ENOUGH: usize = 20;

/// What was compared.
#[derive(Default)]
pub struct Counts {
    pub sessions: u64,
    pub commands: u64,
    /// How often each refusal was expected, by its number.
    pub refusals: [u64; 12],
    /// Sessions in which no exception of document 01 occurs: the plain Rust is their measure.
    pub plain_sessions: u64,
    /// Commands whose expected output is the plain Rust's.
    pub plain_commands: u64,
    pub differences: usize,
}

/// The plain and the repaired oracle side by side.
pub struct Oracles {
    plain: Session,
    repaired: Session,
}

/// What the oracles expect one line to print.
pub struct Expected {
    pub output: Vec<u8>,
    /// The plain Rust is the measure.
    pub plain: bool,
    /// Where the plain Rust is the measure, the repaired oracle says the same.
    pub agreed: bool,
}

impl Default for Oracles {
    /// Two fresh plans.
    fn default() -> Self {
        Oracles {
            plain: Session::new(Rules::PLAIN),
            repaired: Session::new(Rules::REPAIRED),
        }
    }
}

impl Oracles {
    /// Carries out one line in both.
    pub fn line(&mut self, line: &[u8]) -> Expected {
        let (mut by_plain, mut by_repaired) = (Vec::new(), Vec::new());
        self.plain.line(line, &mut by_plain);
        self.repaired.line(line, &mut by_repaired);
        let plain = self.plain.plan().is_within_plain_domain();
        let agreed = !plain || by_plain == by_repaired;
        let output = if plain { by_plain } else { by_repaired };
        Expected {
            output,
            plain,
            agreed,
        }
    }

    /// Carries out all lines of an input and joins what they print.
    fn all(&mut self, input: &[u8]) -> Vec<u8> {
        lines(input)
            .flat_map(|line| self.line(line).output)
            .collect()
    }
}

impl Counts {
    /// Carries out one session and adds to the counts; the text is what it is expected to print.
    pub fn expect(&mut self, oracles: &mut Oracles, session: &[u8]) -> Vec<u8> {
        let (mut output, mut plain, mut agreed) = (Vec::new(), true, true);
        for line in lines(session) {
            let expected = oracles.line(line);
            self.commands += 1;
            self.plain_commands += u64::from(expected.plain);
            self.refusals[refusal(&expected.output)] += 1;
            plain &= expected.plain;
            agreed &= expected.agreed;
            output.extend(expected.output);
        }
        self.sessions += 1;
        self.plain_sessions += u64::from(plain);
        if !agreed {
            println!("the plain and the repaired oracle disagree in the plain domain:");
            println!("{}", session.escape_ascii());
            self.differences += 1;
        }
        output
    }

    /// Prints the counts.
    pub fn print(&self) {
        println!("sessions {}, commands {}", self.sessions, self.commands);
        println!(
            "with the plain Rust as the measure: sessions {}, commands {}",
            self.plain_sessions, self.plain_commands
        );
        for (number, count) in self.refusals.iter().enumerate().skip(1) {
            println!("R {number}: {count}");
        }
        println!("sessions with a difference: {}", self.differences);
    }
}

/// The number of the refusal that a line printed, or 0.
fn refusal(output: &[u8]) -> usize {
    let number = output.strip_prefix(b"R ").unwrap_or(b"0\n");
    number[..number.len() - 1]
        .iter()
        .fold(0, |value, digit| value * 10 + usize::from(digit - b'0'))
}

/// Compares the program with the oracle on `count` sessions; reports the first difference.
pub fn compare(
    program: &str,
    seed: u64,
    count: u64,
    shape: Option<&Shape>,
) -> std::io::Result<Counts> {
    let mut counts = Counts::default();
    for first in (0..count).step_by(BATCH as usize) {
        let batch = sessions(seed, first..count.min(first + BATCH), shape);
        let expected = expect_batch(&batch, &mut counts);
        if run(program, &joined(&batch))? != expected {
            let differing = differing(program, &batch)?;
            if counts.differences == 0 {
                let last = first + batch.len() as u64 - 1;
                println!("difference among the sessions {first} to {last} of seed {seed}");
                report(program, &differing[0])?;
            }
            counts.differences += differing.len();
        }
        if counts.differences >= ENOUGH {
            break;
        }
    }
    Ok(counts)
}

/// The expected output of a batch.
fn expect_batch(batch: &[Vec<u8>], counts: &mut Counts) -> Vec<u8> {
    let mut oracles = Oracles::default();
    let mut expected = Vec::new();
    for (place, session) in batch.iter().enumerate() {
        if place > 0 {
            expected.extend(oracles.all(RESET));
        }
        expected.extend(counts.expect(&mut oracles, session));
    }
    expected
}

/// Sessions of a differing batch that differ alone, or, if none does, all of them as one.
fn differing(program: &str, batch: &[Vec<u8>]) -> std::io::Result<Vec<Vec<u8>>> {
    let mut found = Vec::new();
    for session in batch {
        if found.len() < ENOUGH && differs(program, session)? {
            found.push(session.clone());
        }
    }
    if found.is_empty() {
        found.push(joined(batch));
    }
    Ok(found)
}

/// The program prints something else than the oracle.
fn differs(program: &str, input: &[u8]) -> std::io::Result<bool> {
    Ok(run(program, input)? != Oracles::default().all(input))
}

/// Prints a smallest session with a difference, made of lines of this one.
fn report(program: &str, input: &[u8]) -> std::io::Result<()> {
    let input = shrink(input, |shorter| differs(program, shorter))?;
    println!("smallest session found:");
    print_lines(&input);
    println!("expected:");
    print_lines(&Oracles::default().all(&input));
    println!("printed by the program:");
    print_lines(&run(program, &input)?);
    Ok(())
}

/// Prints lines, with bytes that can't be seen written out.
fn print_lines(text: &[u8]) {
    for line in lines(text) {
        println!("    {}", line.escape_ascii());
    }
}

/// Deletes lines, many at first and then one by one, as long as the difference stays.
pub fn shrink(
    input: &[u8],
    differs: impl Fn(&[u8]) -> std::io::Result<bool>,
) -> std::io::Result<Vec<u8>> {
    let mut kept: Vec<&[u8]> = input.split_inclusive(|byte| *byte == b'\n').collect();
    let mut size = kept.len();
    while size > 0 {
        let mut deleted = false;
        let mut place = 0;
        while place < kept.len() {
            let mut shorter = kept.clone();
            shorter.drain(place..kept.len().min(place + size));
            if differs(&shorter.concat())? {
                kept = shorter;
                deleted = true;
            } else {
                place += size;
            }
        }
        if !deleted || size > 1 {
            size /= 2;
        }
    }
    Ok(kept.concat())
}

/// What the program prints for this input; a bad end of the program is added as a line.
fn run(program: &str, input: &[u8]) -> std::io::Result<Vec<u8>> {
    let mut child = Command::new(program)
        .stdin(Stdio::piped())
        .stdout(Stdio::piped())
        .spawn()?;
    let mut to_program = child.stdin.take().expect("standard input is a pipe");
    let mut from_program = child.stdout.take().expect("standard output is a pipe");
    let (sender, receiver) = mpsc::channel();
    let mut output = thread::scope(|scope| {
        // A program that ends early leaves the rest unread: its output tells.
        scope.spawn(move || to_program.write_all(input));
        scope.spawn(move || {
            let mut output = Vec::new();
            let end = from_program.read_to_end(&mut output);
            sender.send(output).and(Ok(end))
        });
        receiver.recv_timeout(PATIENCE).unwrap_or_else(|_| {
            child.kill().unwrap_or_default();
            receiver.recv().unwrap_or_default()
        })
    });
    let status = child.wait()?;
    if !status.success() {
        output.extend(format!("{status}\n").into_bytes());
    }
    Ok(output)
}
