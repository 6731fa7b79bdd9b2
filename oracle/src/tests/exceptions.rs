//! Where document 01 departs from the Rust, and what the Rust does there.

use super::check;
use super::check_under;
use super::stays_plain;
use crate::rules::Rules;

/// A floor, a second task from -10 up to 500, and a third put at 63 places: 128 rows.
fn full_table() -> String {
    let places: String = (0..62)
        .map(|n| format!("U 2 {0} {0}; ", 510 + 7 * n))
        .collect();
    format!("J 0 0 1000 3; J -10 -10 510 2; J 0 900 2 1; L 9; {places}U 2 500 500")
}

/// Checks the last lines that an input prints.
fn check_end(rules: Rules, input: &str, end: &str) {
    let printed = super::answers(rules, input.replace("; ", "\n").as_bytes());
    let printed = printed.trim_end().replace('\n', "; ");
    assert!(printed.ends_with(end), "{printed} does not end with {end}");
}

#[test]
fn event_at_minus_one_is_lost() {
    let input = "J -1 -1 3 2; J 0 0 3 1; L 5; T";
    check_under(Rules::PLAIN, input, "F; 0 1 1 0 1; 2 2 -1 1; E 2");
    check(input, "F; -1 -1 2 0; 0 1 3 0 1; 2 2 1 1; E 3");
    assert!(!stays_plain(input));
}

#[test]
fn panic_in_a_removal_loses_the_plan() {
    let input = "J -1 -1 3 2; L 2; T; U 0 5 5; T; P 0; U 0 1 1; U 1 0 0; L -1; T; L 0; T";
    check_under(
        Rules::PLAIN,
        input,
        "F; E 0; X; X; X; X; R 7; R 2; X; F; E 0",
    );
}

#[test]
fn panic_in_a_sweep_loses_the_plan() {
    let input = "J -5 -5 8 1; J -1 -1 3 1; J 2 2 3 1; L 5; T";
    check_under(Rules::PLAIN, input, "X; X");
    check(input, "F; -5 -2 1 0; -1 1 2 0 1; 2 2 2 0 2; 3 4 1 2; E 4");
}

#[test]
fn part_put_in_at_minus_one_is_no_exception() {
    assert!(stays_plain("J 3 9 3 1; L 1; U 0 -1 -1; T; U 0 -4 -4; T"));
    assert!(!stays_plain("J 3 3 3 1; J 3 3 3 1; L 1; U 0 -1 -1"));
    assert!(!stays_plain("J -3 -3 2 1; L 1"));
}

#[test]
fn overload_by_a_heavy_task_is_missed() {
    let input = "J 0 10 4 3; L 2; U 0 5 5";
    check_under(Rules::PLAIN, input, "F; F");
    check(input, "F; O 5 8 3");
    assert!(!stays_plain(input));
    assert!(stays_plain("J 0 10 4 3; L 2; T; P 0; U 1 5 5; U 0 5 4"));
}

#[test]
fn negative_amounts_are_dropped() {
    check_under(Rules::PLAIN, "J 0 0 4 -1; J 0 0 -4 1; L 5; T", "F; E 0");
    check_under(Rules::PLAIN, "J 0 0 1 -2147483648; L 5; T", "F; E 0");
    check("J 0 0 4 -1; J 0 0 -4 1; L 5", "R 6");
    check("J 0 0 -4 -1; L 5", "R 5");
    assert!(!stays_plain("J 0 0 4 -1; L 5"));
}

#[test]
fn refusal_8_by_an_added_part() {
    let input = full_table() + "; T; U 2 960 960; T";
    assert!(stays_plain(&full_table()));
    assert!(!stays_plain(&input));
    check_end(Rules::PLAIN, &input, "E 130");
    check_end(Rules::REPAIRED, &input, "E 128");
    assert!(super::answers(Rules::REPAIRED, input.replace("; ", "\n").as_bytes()).contains("R 8"));
}

#[test]
fn refusal_8_by_a_removed_part_though_the_update_ends_at_128_rows() {
    let input = full_table() + "; U 1 -110 0";
    assert!(!stays_plain(&input));
    check_end(Rules::REPAIRED, &input, "; R 8");
    check_end(Rules::REPAIRED, &(input.clone() + "; T"), "E 128");
    check_end(Rules::PLAIN, &input, "; F");
    check_end(Rules::PLAIN, &(input + "; T"), "E 128");
}

#[test]
fn next_accepted_load_ends_an_exception() {
    let mut session = crate::command::Session::new(Rules::PLAIN);
    let mut plain = Vec::new();
    for line in ["J -1 -1 1 1", "L 1", "T", "L -1", "L 1"] {
        session.line(line.as_bytes(), &mut Vec::new());
        plain.push(session.plan().is_within_plain_domain());
    }
    assert_eq!(plain, [true, false, false, false, true]);
}
