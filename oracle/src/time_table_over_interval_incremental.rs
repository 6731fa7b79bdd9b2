//! Follows cumulative/time_table/over_interval_incremental_propagator/time_table_over_interval_incremental.rs of ConSol-Lab/Pumpkin 5be28fb3ad; MIT OR Apache-2.0.

use std::ops::Range;
use std::rc::Rc;

use crate::insertion;
use crate::mandatory_part_adjustments::MandatoryPartAdjustments;
use crate::removal;
use crate::stand_ins::create_conflict_explanation;
use crate::stand_ins::CumulativeParameters;
use crate::stand_ins::Domains;
use crate::stand_ins::IntegerVariable;
use crate::stand_ins::PropagatorConflict;
use crate::stand_ins::Task;
use crate::stand_ins::UpdatedTaskInfo;
use crate::time_table_over_interval::create_time_table_over_interval_from_scratch;
use crate::time_table_over_interval::OverIntervalTimeTableType;
use crate::time_table_util::has_overlap_with_interval;

/// The part of the propagator that keeps the time-table; a time-table is a structure which stores
/// the mandatory resource usage of the tasks at different time-points.
///
/// It does not recalculate the time-table from scratch whenever a task is updated but only updates
/// the structure based on the updated mandatory parts.
#[derive(Clone, Debug)]
pub struct TimeTableOverIntervalIncrementalPropagator<Var> {
    /// The key `t` (representing a time-point) holds the mandatory resource consumption of
    /// [`Task`]s at that time (stored in a [`ResourceProfile`]); the [`ResourceProfile`]s are
    /// sorted based on start time and they are assumed to be non-overlapping
    pub time_table: OverIntervalTimeTableType<Var>,
    /// Stores the input parameters to the cumulative constraint
    pub parameters: CumulativeParameters<Var>,
    /// The update which has not been processed yet (stands for Pumpkin's `UpdatableStructures`)
    pub updated: Option<UpdatedTaskInfo<Var>>,
    /// Stores whether the propagator found a conflict in the previous call
    ///
    /// This is stored to deal with the case where the same conflict can be created via two
    /// distinct propagation chains; to the propagator it appears that nothing has changed (since
    /// the bounds on the variables remain the same) but there is still a conflicting profile in
    /// the time-table
    pub found_previous_conflict: bool,
    /// Indicates whether the current time-table is outdated and should be recalculated from
    /// scratch or not.
    pub is_time_table_outdated: bool,
    /// The greatest number of rows after any one part since it was last set to 0 (for refusal 8;
    /// not in Pumpkin)
    pub most_rows: usize,
}

impl<Var: IntegerVariable + 'static> TimeTableOverIntervalIncrementalPropagator<Var> {
    /// A time-table which is outdated, so that the first call of
    /// [`TimeTableOverIntervalIncrementalPropagator::update_time_table`] creates it from scratch.
    pub fn new(
        parameters: CumulativeParameters<Var>,
    ) -> TimeTableOverIntervalIncrementalPropagator<Var> {
        TimeTableOverIntervalIncrementalPropagator {
            time_table: Default::default(),
            parameters,
            updated: None,
            found_previous_conflict: false,
            is_time_table_outdated: true,
            most_rows: 0,
        }
    }

    /// Adds the added parts in the provided [`MandatoryPartAdjustments`] to the time-table; note
    /// that all of the adjustments are applied even if a conflict is found.
    ///
    /// Returns true if the addition to the time-table caused an overflow of the capacity.
    fn conflicting_after_addition_to_time_table(
        &mut self,
        mandatory_part_adjustments: &MandatoryPartAdjustments,
        task: &Rc<Task<Var>>,
    ) -> bool {
        let mut found_conflict = false;
        // We consider both of the possible update ranges
        // Note that the upper update range is first considered to avoid any issues with the
        // indices when processing the other update range
        for update_range in mandatory_part_adjustments.get_added_parts() {
            // First we attempt to find overlapping profiles
            match determine_profiles_to_update(&self.time_table, &update_range) {
                Ok((start_index, end_index)) => {
                    let conflicting =
                        insertion::conflicting_after_insertion_of_overlapping_mandatory(
                            &mut self.time_table,
                            start_index,
                            end_index,
                            &update_range,
                            task,
                            self.parameters.capacity,
                        );
                    found_conflict |= conflicting;
                }
                Err(index_to_insert) => insertion::insert_profile_new_mandatory_part(
                    &mut self.time_table,
                    index_to_insert,
                    &update_range,
                    task,
                ),
            }
            self.most_rows = self.most_rows.max(self.time_table.len());
        }

        found_conflict
    }

    /// Removes the removed parts in the provided [`MandatoryPartAdjustments`] from the time-table
    fn remove_from_time_table(
        &mut self,
        mandatory_part_adjustments: &MandatoryPartAdjustments,
        task: &Rc<Task<Var>>,
    ) {
        // We consider both of the possible update ranges
        // Note that the upper update range is first considered to avoid any issues with the
        // indices when processing the other update range
        for update_range in mandatory_part_adjustments.get_removed_parts() {
            // First we attempt to find overlapping profiles
            match determine_profiles_to_update(&self.time_table, &update_range) {
                Ok((start_index, end_index)) => {
                    removal::reduce_profiles_overlapping_with_added_mandatory_part(
                        &mut self.time_table,
                        start_index,
                        end_index,
                        &update_range,
                        task,
                    )
                }
                Err(_) => {
                    panic!("Removal should always have overlap with a profile")
                }
            }
            self.most_rows = self.most_rows.max(self.time_table.len());
        }
    }

    /// Updates the stored time-table based on the update stored in
    /// [`TimeTableOverIntervalIncrementalPropagator::updated`] or recalculates it from scratch if
    /// [`TimeTableOverIntervalIncrementalPropagator::is_time_table_outdated`] is true.
    ///
    /// An error is returned if an overflow of the resource occurs while updating the time-table.
    pub fn update_time_table(&mut self, context: Domains) -> Result<(), PropagatorConflict> {
        if self.is_time_table_outdated {
            // We create the time-table from scratch (and return an error if it overflows)
            self.time_table =
                create_time_table_over_interval_from_scratch(context, &self.parameters)?;

            // Then we note that the time-table is not outdated anymore
            self.is_time_table_outdated = false;

            // And we clear all of the updates since they have now necessarily been processed
            self.updated = None;

            return Ok(());
        }

        // We keep track whether a conflict was found
        let mut found_conflict = false;

        // Then we go over all of the updated tasks
        while let Some(element) = self.updated.take() {
            let updated_task = Rc::clone(&element.task);

            // We get the adjustments based on the stored updated
            let mandatory_part_adjustments = element.get_mandatory_part_adjustments();

            // Then we first remove from the time-table (if necessary)
            //
            // This order ensures that there is less of a chance of incorrect overflows being
            // reported
            self.remove_from_time_table(&mandatory_part_adjustments, &updated_task);

            // Then we add to the time-table (if necessary)
            //
            // Note that the inconsistency returned here does not necessarily hold since other
            // updates could remove from the profile
            let conflicting = self.conflicting_after_addition_to_time_table(
                &mandatory_part_adjustments,
                &updated_task,
            );

            // If we have found an overflow then we mark that we need to check the profile
            found_conflict |= conflicting;
        }

        // After all the updates have been processed, we need to check whether there is still a
        // conflict in the time-table (if any calls have reported an overflow)
        if found_conflict || self.found_previous_conflict || self.parameters.rules.heavy {
            // We linearly scan the profiles and find the first one which exceeds the capacity
            let conflicting_profile = self
                .time_table
                .iter_mut()
                .find(|profile| profile.height > self.parameters.capacity);

            // If we have found such a conflict then we return it
            if let Some(conflicting_profile) = conflicting_profile {
                // We have found the previous conflict
                self.found_previous_conflict = true;

                return Err(create_conflict_explanation(conflicting_profile));
            }
            // Otherwise we mark that we have not found the previous conflict and continue
            self.found_previous_conflict = false;
        }

        Ok(())
    }
}

/// Determines which profiles are required to be updated given a range of times which now
/// include a mandatory part (i.e. determine the profiles which overlap with the update_range).
/// It returns two indices into
/// [time_table][TimeTableOverIntervalIncrementalPropagator::time_table] representing the
/// index of the first profile which overlaps with the update_range (inclusive)
/// and the index of the last profile which overlaps with the update_range (inclusive) or [None]
/// if there are no overlapping profiles
///
/// Note that the lower-bound of the range is inclusive and the upper-bound is exclusive
fn determine_profiles_to_update<Var: IntegerVariable + 'static>(
    time_table: &OverIntervalTimeTableType<Var>,
    update_range: &Range<i32>,
) -> Result<(usize, usize), usize> {
    let overlapping_profile = find_overlapping_profile(time_table, update_range);

    if overlapping_profile.is_err() {
        // We have not found any profile which overlaps with the update range
        return Err(overlapping_profile.expect_err("Overlapping profile could not be found"));
    }

    // Now we need to find all of the profiles which are adjacent to `overlapping_profile` which
    // also overlap with `update_range` Our starting index is thus the index of
    // `overlapping_profile` and we need to search to the left and the right of the profile to
    // find the other overlapping profiles
    let mut left_most_overlapping_index = overlapping_profile.unwrap();
    let mut right_most_overlapping_index = left_most_overlapping_index;
    if left_most_overlapping_index > 0 {
        // We go to the left of `overlapping_profile`
        for left_profile_index in (0..left_most_overlapping_index).rev() {
            let profile = &time_table[left_profile_index];
            if has_overlap_with_interval(
                update_range.start,
                update_range.end,
                profile.start,
                profile.end,
            ) {
                // We now know that the left most overlapping index is either
                // `left_profile_index` or before it
                left_most_overlapping_index = left_profile_index;
            } else {
                // We know that no profile on the left of this one will be overlapping with
                // `update_range`
                break;
            }
        }
    }

    // We go to the right of `overlapping_profile`
    for (right_profile_index, _) in time_table
        .iter()
        .enumerate()
        .skip(left_most_overlapping_index + 1)
    {
        let profile = &time_table[right_profile_index];
        if has_overlap_with_interval(
            update_range.start,
            update_range.end,
            profile.start,
            profile.end,
        ) {
            // We now know that the right most overlapping index is either `right_profile_index`
            // or after it
            right_most_overlapping_index = right_profile_index;
        } else {
            // We know that no profile on the right of this one will be overlapping with
            // `update_range`
            break;
        }
    }
    Ok((left_most_overlapping_index, right_most_overlapping_index))
}

/// Performs a binary search on the
/// [time-table][TimeTableOverIntervalIncrementalPropagator::time_table] to find *an* element
/// which overlaps with the `update_range`. If such an element can be found then it returns
/// [Ok] containing the index of the overlapping profile. If no such element could be found,
/// it returns [Err] containing the index at which the element should be inserted to
/// preserve the ordering
fn find_overlapping_profile<Var: IntegerVariable + 'static>(
    time_table: &OverIntervalTimeTableType<Var>,
    update_range: &Range<i32>,
) -> Result<usize, usize> {
    time_table.binary_search_by(|profile| {
        if has_overlap_with_interval(
            update_range.start,
            update_range.end,
            profile.start,
            profile.end,
        ) {
            return std::cmp::Ordering::Equal;
        } else if profile.end < update_range.start {
            return std::cmp::Ordering::Less;
        }
        std::cmp::Ordering::Greater
    })
}
