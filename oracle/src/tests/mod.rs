//! Document 01's listing, corners and exceptions, the command language, and the random sessions.

mod commands;
mod corners;
mod exceptions;
mod listing;
mod plans;
mod sessions;

use crate::command::lines;
use crate::command::Session;
use crate::rules::Rules;

/// What a whole input prints.
fn answers(rules: Rules, input: &[u8]) -> String {
    let mut session = Session::new(rules);
    let mut output = Vec::new();
    for line in lines(input) {
        session.line(line, &mut output);
    }
    String::from_utf8(output).expect("answers are text")
}

/// Checks what an input prints as document 01 has it; both are lists parted by `;`.
fn check(input: &str, output: &str) {
    check_under(Rules::REPAIRED, input, output);
}

/// Checks what an input prints under some rules; both are lists parted by `;`.
fn check_under(rules: Rules, input: &str, output: &str) {
    let printed = answers(rules, input.replace("; ", "\n").as_bytes());
    assert_eq!(
        printed.trim_end().replace('\n', "; "),
        output,
        "for {input}"
    );
}

/// No exception of document 01 occurs in the input; it is a list parted by `;`.
fn stays_plain(input: &str) -> bool {
    let mut session = Session::new(Rules::PLAIN);
    input.split("; ").all(|line| {
        session.line(line.as_bytes(), &mut Vec::new());
        session.plan().is_within_plain_domain()
    })
}
