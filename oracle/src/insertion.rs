//! Follows cumulative/time_table/over_interval_incremental_propagator/insertion.rs of ConSol-Lab/Pumpkin 5be28fb3ad; MIT OR Apache-2.0.
//!
//! Contains the functions necessary for inserting the appropriate profiles into the time-table
//! based on the added mandatory part.
use std::ops::Range;
use std::rc::Rc;

use crate::checks;
use crate::stand_ins::IntegerVariable;
use crate::stand_ins::ResourceProfile;
use crate::stand_ins::Task;
use crate::time_table_over_interval::OverIntervalTimeTableType;

/// The new mandatory part added by `updated_task` (spanning `update_range`) overlaps with the
/// profiles in `[start_index, end_index]`. This function calculates the added, and updated
/// profiles and adds them to the `time-table` at the correct position.
///
/// Return `true`, if a conflict was found.
pub(crate) fn conflicting_after_insertion_of_overlapping_mandatory<
    Var: IntegerVariable + 'static,
>(
    time_table: &mut OverIntervalTimeTableType<Var>,
    start_index: usize,
    end_index: usize,
    update_range: &Range<i32>,
    updated_task: &Rc<Task<Var>>,
    capacity: i32,
) -> bool {
    let mut to_add = Vec::new();

    // We keep track of whether a conflict has been found
    let mut found_conflict = false;

    // Go over all indices of the profiles which overlap with the updated
    // one and determine which one need to be updated
    for current_index in start_index..=end_index {
        let profile = &time_table[current_index];

        // Check whether there is a new profile before the first overlapping
        // profile
        checks::new_profile_before_first_profile(
            current_index,
            start_index,
            update_range,
            profile,
            &mut to_add,
            updated_task,
        );

        // Check whether there is a new profile between the current profile
        // and the previous profile (beginning of profile remains unchanged)
        checks::new_profile_between_profiles(
            time_table,
            current_index,
            start_index,
            update_range,
            profile,
            &mut to_add,
            updated_task,
        );

        // Check whether the current profile is split by the added mandatory
        // part
        checks::split_profile_added_part_starts_after_profile_start(
            update_range,
            profile,
            &mut to_add,
        );

        // Check whether there is an increased profile due to overlap
        // between the current profile and the added mandatory part
        //
        // The addition of the mandatory part can lead to an overflow
        let conflicting = checks::overlap_updated_profile(
            update_range,
            profile,
            &mut to_add,
            updated_task,
            capacity,
        );
        found_conflict |= conflicting;

        // Check whether the current profile is split by the added mandatory
        // part (end of profile remains unchanged)
        checks::split_profile_added_part_ends_before_profile_end(
            update_range,
            profile,
            &mut to_add,
        );

        // Check whether there is a new profile before the last overlapping
        // profile
        checks::new_part_after_last_profile(
            current_index,
            end_index,
            update_range,
            profile,
            &mut to_add,
            updated_task,
        );
    }
    // We now update the time-table to insert the newly created profiles at
    // the right place to ensure the ordering invariant
    let _ = time_table.splice(start_index..end_index + 1, to_add);

    found_conflict
}

/// The new mandatory part added by `updated_task` (spanning `update_range`) does not overlap
/// with any existing profile. This method inserts it at the position of `index_to_insert`
/// in the `time-table`.
pub(crate) fn insert_profile_new_mandatory_part<Var: IntegerVariable + 'static>(
    time_table: &mut OverIntervalTimeTableType<Var>,
    index_to_insert: usize,
    update_range: &Range<i32>,
    updated_task: &Rc<Task<Var>>,
) {
    // Insert the new profile at its index
    time_table.insert(
        index_to_insert,
        ResourceProfile {
            start: update_range.start,
            end: update_range.end - 1,
            profile_tasks: vec![Rc::clone(updated_task)],
            height: updated_task.resource_usage,
        },
    );
}
