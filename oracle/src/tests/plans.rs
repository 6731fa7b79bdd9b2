//! What the plan does that the command program does not show, and the order of the refusals.

use super::check;
use crate::plan::Answer;
use crate::plan::Halt;
use crate::plan::Job;
use crate::plan::Plan;
use crate::plan::Refusal;
use crate::plan::RowRecord;
use crate::rules::Rules;

/// A job from its four numbers.
fn job([earliest, latest, duration, usage]: [i32; 4]) -> Job {
    Job {
        earliest,
        latest,
        duration,
        usage,
    }
}

#[test]
fn a_load_names_the_ids() {
    let numbers = [
        [0, 0, 1, 2],
        [0, 0, 0, 9],
        [5, 5, 1, 3],
        [0, 0, 1, 0],
        [9, 9, 1, 2],
    ];
    let loaded = Plan::fresh(Rules::REPAIRED)
        .load(&numbers.map(job), 3)
        .unwrap();
    assert_eq!(loaded.ids, [Some(1), None, Some(0), None, Some(2)]);
    assert_eq!(loaded.answer, Answer::Fits);
}

#[test]
fn a_load_of_33_jobs_is_refused() {
    let jobs = [job([0, 0, 1, 1]); 33];
    let refused = Plan::fresh(Rules::REPAIRED).load(&jobs, -1);
    assert_eq!(refused, Err(Halt::Refused(Refusal::TooManyJobs)));
}

#[test]
fn rows_go_to_a_lent_slice() {
    let mut plan = Plan::fresh(Rules::REPAIRED);
    plan.load(&[job([0, 0, 4, 2]), job([2, 2, 4, 3])], 5)
        .unwrap();
    let other = RowRecord {
        start: 7,
        ..RowRecord::default()
    };
    let mut lent = vec![other.clone(); 4];
    let refused = plan.rows(&mut lent[..2]);
    assert_eq!(refused, Err(Halt::Refused(Refusal::ShortSlice)));
    assert!(lent.iter().all(|row| *row == other));
    assert_eq!(plan.rows(&mut lent), Ok(3));
    assert_eq!((lent[2].start, lent[2].end, lent[2].height), (4, 5, 3));
    assert_eq!(lent[1].ids, [1, 0]);
    assert_eq!(lent[3], other);
}

#[test]
fn refusals_of_a_load_come_job_by_job() {
    check("J 1000000001 0 -1 -1; L -1", "R 2");
    check("J 1000000001 0 -1 -1; L 1", "R 3");
    check("J 0 -1000000001 -1 -1; L 1", "R 3");
    check("J 1 0 -1 -1; L 1", "R 4");
    check("J 0 0 -1 -1; L 1", "R 5");
    check("J 0 0 1000000001 1; L 1", "R 5");
    check("J 0 0 0 1000001; L 1", "R 6");
    check("J 0 0 1 -1; J 2 1 1 1; L 1", "R 6");
    check("J 2 1 0 0; L 1", "R 4");
}

#[test]
fn refusals_of_an_update_and_a_fit() {
    let load = "J 0 0 4 3; L 2; ";
    check(
        &format!("{load}U 1 5000000 0; U 0 1000000001 0; U 0 1 0"),
        "O 0 3 3; R 7; R 3; R 4",
    );
    check(&format!("{load}P 1; P 0; T"), "O 0 3 3; R 7; R 9; R 9");
}

#[test]
fn a_stale_table_comes_alive() {
    check(
        "J 0 0 4 2; J 2 2 4 2; L 3; T; U 1 3 3; U 1 4 4; T; U 1 3 3; T; L 0; T",
        "O 2 3 4; R 9; O 3 3 4; F; 0 3 2 0; 4 7 2 1; E 2; O 3 3 4; \
         0 2 2 0; 3 3 4 0 1; 4 6 2 1; E 3; F; E 0",
    );
}

#[test]
fn first_fit_counts_own_rows() {
    check("J 0 0 4 1; L 1; P 0", "F; N");
    check(
        "J 0 6 4 1; L 1; U 0 0 2; P 0; U 0 0 6; P 0",
        "F; F; N; F; S 0",
    );
    check(
        "J -1000000000 1000000000 1000000000 1; L 1; P 0",
        "F; S -1000000000",
    );
}
