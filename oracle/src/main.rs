//! The program `oracle`: the command program of document 01 over the Rust, a generator of random
//! sessions, and a comparison with another program.

use std::io::BufRead;
use std::io::BufWriter;
use std::io::Write;
use std::process::ExitCode;

use oracle::command::Session;
use oracle::compare::compare;
use oracle::generate::joined;
use oracle::generate::sessions;
use oracle::rules::Rules;
use oracle::shapes::named;
use oracle::shapes::Shape;
use oracle::shapes::SHAPES;

const HELP: &str = "\
oracle [SWITCH..]
    reads commands from standard input and prints the answers
oracle generate SEED COUNT [SHAPE]
    prints COUNT random sessions as one input
oracle compare PROGRAM [SEED [COUNT [SHAPE]]]
    holds the program against the oracle; by default seed 1 and 21000 sessions of all shapes

Without a switch everything is as the Rust is. A switch repairs one exception (docs/DIFFERENCES.md):
  --minus-one  a sweep with an event at time -1 (the Rust loses the row that is open then)
  --heavy      an update in a plan with a usage over the capacity (the Rust may miss the overload)
  --negative   negative usage or duration: refusal 6 or 5 (the Rust drops the job)
  --rows       over 128 rows: refusal 8 (the Rust's vector grows)
  --repaired   all four: what docs/SCOPE.md wants
  --domain     at the end, say on standard error if an exception occurred, and at which line first

Where the Rust panics, which it can do after a sweep with an event at -1, the answer is X, and so is
every answer about the table until the next accepted load.

Shapes, one after the other if none is named:";

/// Does what the arguments ask for.
fn main() -> ExitCode {
    // A panic of the Rust is caught and answered with X; nothing else is to be said about it.
    std::panic::set_hook(Box::new(|_| {}));
    let arguments: Vec<String> = std::env::args().skip(1).collect();
    let words: Vec<&str> = arguments.iter().map(String::as_str).collect();
    let done = match words.as_slice() {
        ["generate", seed, count, shape @ ..] => generate(seed, count, shape),
        ["compare", program, rest @ ..] => compare_with(program, rest),
        ["--help"] => help(),
        switches => answer(switches),
    };
    done.unwrap_or_else(|message| {
        eprintln!("oracle: {message}");
        ExitCode::from(2)
    })
}

/// Prints how to use the program.
fn help() -> Result<ExitCode, String> {
    println!("{HELP}");
    for shape in &SHAPES {
        println!("  {:<12} {}", shape.name, shape.about);
    }
    Ok(ExitCode::SUCCESS)
}

/// Answers the commands from standard input.
fn answer(switches: &[&str]) -> Result<ExitCode, String> {
    let (rules, domain) = read_switches(switches)?;
    let mut session = Session::new(rules);
    let mut input = std::io::stdin().lock();
    let mut output = BufWriter::new(std::io::stdout().lock());
    let (mut line, mut number, mut left) = (Vec::new(), 0, None);
    while input.read_until(b'\n', &mut line).map_err(text)? > 0 {
        number += 1;
        let mut answer = Vec::new();
        session.line(line.strip_suffix(b"\n").unwrap_or(&line), &mut answer);
        output.write_all(&answer).map_err(text)?;
        if left.is_none() && !session.plan().is_within_plain_domain() {
            left = Some(number);
        }
        line.clear();
    }
    output.flush().map_err(text)?;
    match (domain, left) {
        (true, None) => eprintln!("no exception"),
        (true, Some(number)) => eprintln!("first exception at line {number}"),
        (false, _) => {}
    }
    Ok(ExitCode::SUCCESS)
}

/// The rules that the switches name, and whether the domain is to be reported.
fn read_switches(switches: &[&str]) -> Result<(Rules, bool), String> {
    let (mut rules, mut domain) = (Rules::PLAIN, false);
    for switch in switches {
        match *switch {
            "--minus-one" => rules.minus_one = true,
            "--heavy" => rules.heavy = true,
            "--negative" => rules.negative = true,
            "--rows" => rules.rows = true,
            "--repaired" => rules = Rules::REPAIRED,
            "--domain" => domain = true,
            _ => return Err(format!("{switch}: see oracle --help")),
        }
    }
    Ok((rules, domain))
}

/// Prints random sessions.
fn generate(seed: &str, count: &str, shape: &[&str]) -> Result<ExitCode, String> {
    let (seed, count, shape) = (number(seed)?, number(count)?, read_shape(shape)?);
    let input = joined(&sessions(seed, 0..count, shape));
    std::io::stdout().write_all(&input).map_err(text)?;
    Ok(ExitCode::SUCCESS)
}

/// Compares a program with the oracle.
fn compare_with(program: &str, rest: &[&str]) -> Result<ExitCode, String> {
    let seed = rest.first().map_or(Ok(1), |word| number(word))?;
    let count = rest.get(1).map_or(Ok(21_000), |word| number(word))?;
    let shape = read_shape(rest.get(2..).unwrap_or_default())?;
    let counts = compare(program, seed, count, shape).map_err(text)?;
    counts.print();
    Ok(if counts.differences == 0 {
        ExitCode::SUCCESS
    } else {
        ExitCode::FAILURE
    })
}

/// The shape that is named, if one is.
fn read_shape(words: &[&str]) -> Result<Option<&'static Shape>, String> {
    match words {
        [] => Ok(None),
        [name] => named(name)
            .map(Some)
            .ok_or_else(|| format!("{name}: no such shape")),
        _ => Err("too many arguments".to_string()),
    }
}

/// Reads a number of the command line.
fn number(word: &str) -> Result<u64, String> {
    word.parse().map_err(|_| format!("{word}: not a number"))
}

/// What an error has to say.
fn text(error: std::io::Error) -> String {
    error.to_string()
}
