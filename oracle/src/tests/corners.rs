//! The corners a to o of document 01.

use std::ops::Range;
use std::rc::Rc;

use super::answers;
use super::check;
use crate::rules::Rules;
use crate::stand_ins::LocalId;
use crate::stand_ins::StartVariable;
use crate::stand_ins::Task;
use crate::stand_ins::UpdatedTaskInfo;

/// Checks the removed and the added parts for an old and a new part.
fn check_parts(old: Range<i32>, new: Range<i32>, removed: &str, added: &str) {
    let processing_time = 10;
    let task = Rc::new(Task {
        start_variable: StartVariable(0),
        processing_time,
        resource_usage: 1,
        id: LocalId::from(0),
    });
    let update = UpdatedTaskInfo {
        task,
        old_lower_bound: old.end - processing_time,
        old_upper_bound: old.start,
        new_lower_bound: new.end - processing_time,
        new_upper_bound: new.start,
    };
    let adjustments = update.get_mandatory_part_adjustments();
    let text = |parts: Vec<Range<i32>>| format!("{parts:?}");
    assert_eq!(text(adjustments.get_removed_parts().collect()), removed);
    assert_eq!(text(adjustments.get_added_parts().collect()), added);
}

#[test]
fn a_b_part_of_a_job() {
    check("J 5 7 3 1; L 1; T", "F; 7 7 1 0; E 1");
    check("J 5 8 3 1; L 1; T", "F; E 0");
}

#[test]
fn c_d_e_adjustments() {
    check_parts(2..8, 4..6, "[6..8, 2..4]", "[]");
    check_parts(4..6, 2..8, "[]", "[6..8, 2..4]");
    check_parts(3..6, 6..9, "[3..6]", "[6..9]");
}

#[test]
fn f_touching_parts() {
    check("J 0 0 4 3; J 4 4 4 3; L 3; T", "F; 0 3 3 0; 4 7 3 1; E 2");
}

#[test]
fn g_row_from_minus_one() {
    check("J -1 -1 3 2; L 2; T", "F; -1 1 2 0; E 1");
}

#[test]
fn h_i_usage_over_the_capacity() {
    check("J 0 0 4 3; L 2; T", "O 0 3 3; R 9");
    check("J 0 10 4 3; L 2; U 0 5 5", "F; O 5 8 3");
}

#[test]
fn j_no_jobs() {
    check("L 0; T", "F; E 0");
}

#[test]
fn k_last_instant() {
    check(
        "J 1000000000 1000000000 1000000000 1; L 1; T",
        "F; 1000000000 1999999999 1 0; E 1",
    );
}

#[test]
fn l_m_first_fit() {
    check("J 0 0 4 2; J 2 2 4 3; J 0 10 3 1; L 5; P 2", "F; S 4");
    check("J 0 0 4 2; J 2 2 4 3; J 1 3 2 1; L 5; P 2", "F; N");
}

#[test]
fn n_rows_stay_cut() {
    check(
        "J 0 0 10 1; J 0 20 2 1; L 2; U 1 4 4; U 1 0 20; T",
        "F; F; F; 0 3 1 0; 4 5 1 0; 6 9 1 0; E 3",
    );
}

#[test]
fn o_no_room_for_a_row() {
    let places: String = (0..64)
        .map(|n| format!("U 1 {0} {0}; ", 15 * n + 5))
        .collect();
    let input = format!("J 0 0 1000 1; J 0 900 3 1; L 2; {places}T");
    let printed = answers(Rules::REPAIRED, input.replace("; ", "\n").as_bytes());
    let lines: Vec<&str> = printed.lines().collect();
    assert_eq!(lines[..64], ["F"; 64]);
    assert_eq!(lines[64], "R 8");
    assert_eq!(lines.last(), Some(&"E 127"));
}
