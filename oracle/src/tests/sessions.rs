//! The random sessions: the same again for the same seed, of every shape, and reaching every corner.

use super::answers;
use crate::command::lines;
use crate::command::Session;
use crate::compare::shrink;
use crate::compare::Counts;
use crate::compare::Oracles;
use crate::generate::session;
use crate::generate::sessions;
use crate::generate::RESET;
use crate::plan::Plan;
use crate::rules::Rules;
use crate::shapes::named;
use crate::shapes::SHAPES;

/// The rules of document 01 but for the limit of the rows.
const GROWING: Rules = Rules {
    rows: false,
    ..Rules::REPAIRED
};

#[test]
fn sessions_come_again() {
    assert_eq!(sessions(5, 0..21, None), sessions(5, 0..21, None));
    assert_ne!(session(5, 0, None), session(6, 0, None));
    assert_ne!(session(5, 0, named("few")), session(5, 21, named("few")));
}

#[test]
fn last_line_may_lack_its_line_feed() {
    let unended = |count| {
        !sessions(1, 0..count, named("few"))
            .concat()
            .ends_with(b"\n")
    };
    let found = (1..40).filter(|count| unended(*count)).count();
    assert!((10..30).contains(&found));
}

#[test]
fn reset_leads_back_to_the_start() {
    let leftover = b"J -1 -1 3 2\nL 1\nJ 0 0 1 1\n";
    for number in 0..SHAPES.len() as u64 {
        let session = session(1, number, None);
        let alone = answers(Rules::REPAIRED, &session);
        let after = answers(Rules::REPAIRED, &[leftover, RESET, &session].concat());
        assert!(after.ends_with(&alone));
    }
}

#[test]
fn plain_and_repaired_agree_where_the_rust_is_the_measure() {
    let mut counts = Counts::default();
    for number in 0..20 * SHAPES.len() as u64 {
        counts.expect(&mut Oracles::default(), &session(2, number, None));
    }
    assert_eq!(counts.differences, 0);
    assert!(3 * counts.plain_sessions > counts.sessions);
    let unmet: Vec<usize> = (1..12).filter(|n| counts.refusals[*n] == 0).collect();
    assert_eq!(
        unmet,
        [10],
        "the command program always lends places enough"
    );
}

#[test]
fn plain_shape_has_no_exception() {
    let mut counts = Counts::default();
    for number in 0..100 {
        counts.expect(&mut Oracles::default(), &session(3, number, named("plain")));
    }
    assert_eq!(counts.plain_sessions, 100);
}

/// How the first refusal 8 of a session comes about: the update only removes, and the rows that a
/// table without limit has after it.
fn first_refusal_8(text: &[u8]) -> Option<(bool, usize)> {
    let mut repaired = Session::new(Rules::REPAIRED);
    let mut growing = Session::new(GROWING);
    for line in lines(text) {
        let before = growing.plan().jobs();
        let mut answer = Vec::new();
        repaired.line(line, &mut answer);
        growing.line(line, &mut Vec::new());
        if answer == b"R 8\n" {
            let changed = |(old, new): (&crate::plan::Job, crate::plan::Job)| {
                new.latest >= old.latest && new.earliest <= old.earliest
            };
            let only_removes = before.iter().zip(growing.plan().jobs()).all(changed);
            return Some((only_removes, growing.plan().row_count()));
        }
    }
    None
}

#[test]
fn refusal_8_comes_in_all_ways() {
    let first = |name: &str| -> Vec<(bool, usize)> {
        let texts = (0..40).map(|number| session(4, number, named(name)));
        texts.filter_map(|text| first_refusal_8(&text)).collect()
    };
    let (grown, shrunk) = (first("grown"), first("shrunk"));
    assert!(grown.iter().any(|(removes, _)| !removes));
    assert!(shrunk.iter().any(|(removes, _)| *removes));
    assert!(shrunk.iter().any(|(_, rows)| *rows <= Plan::ROWS));
}

#[test]
fn tables_are_full_and_rows_hold_32_ids() {
    let printed = |name| answers(Rules::REPAIRED, &sessions(1, 0..8, named(name)).concat());
    assert!(printed("full").contains("\nE 128\n"));
    let widest = |text: String| text.lines().map(|line| line.split(' ').count()).max();
    assert_eq!(widest(printed("stack")), Some(3 + 32));
}

#[test]
fn shrinking_leaves_what_is_needed() {
    let input = b"a\nb\nc\nd\ne\nf\ng";
    let needed = |text: &[u8]| Ok(text.contains(&b'b') && text.contains(&b'g'));
    assert_eq!(shrink(input, needed).unwrap(), b"b\ng");
}
