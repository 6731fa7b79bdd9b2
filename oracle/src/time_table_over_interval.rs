//! Follows cumulative/time_table/time_table_over_interval.rs of ConSol-Lab/Pumpkin 5be28fb3ad; MIT OR Apache-2.0.

use std::rc::Rc;

use crate::stand_ins::create_conflict_explanation;
use crate::stand_ins::CumulativeParameters;
use crate::stand_ins::Domains;
use crate::stand_ins::IntegerVariable;
use crate::stand_ins::PropagatorConflict;
use crate::stand_ins::ReadDomains;
use crate::stand_ins::ResourceProfile;
use crate::stand_ins::Task;

/// An event storing the start and end of mandatory parts used for creating the time-table
#[derive(Debug)]
pub(crate) struct Event<Var> {
    /// The time-point at which the [`Event`] took place
    time_stamp: i32,
    /// Change in resource usage at [time_stamp][Event::time_stamp], positive if it is the start of
    /// a mandatory part and negative otherwise
    change_in_resource_usage: i32,
    /// The [`Task`] which has caused the event to take place
    task: Rc<Task<Var>>,
}

/// The type of the time-table used by propagators which use time-table reasoning over intervals.
///
/// The [ResourceProfile]s are sorted based on start time and they are non-overlapping; each entry
/// in the [`Vec`] represents the mandatory resource usage across an interval.
pub type OverIntervalTimeTableType<Var> = Vec<ResourceProfile<Var>>;

/// Creates a time-table consisting of [`ResourceProfile`]s which represent rectangles with a
/// start and end (both inclusive) consisting of tasks with a cumulative height.
///
/// **Assumptions:**
/// The time-table is sorted based on start time and none of the profiles overlap - it is
/// assumed that the calculated [`ResourceProfile`]s are maximal
///
/// The result of this method is either the time-table of type
/// [`OverIntervalTimeTableType`] or the profile which is in conflict in the form of a
/// [`PropagatorConflict`].
pub fn create_time_table_over_interval_from_scratch<Var: IntegerVariable + 'static>(
    context: Domains,
    parameters: &CumulativeParameters<Var>,
) -> Result<OverIntervalTimeTableType<Var>, PropagatorConflict> {
    // First we create a list of all the events (i.e. start and ends of mandatory parts)
    let events = create_events(context, parameters);

    // Then we create a time-table using these events
    if parameters.rules.minus_one {
        // Repaired: no event within document 01's numbers takes place at the mark
        create_time_table_from_events::<Var, { i32::MIN }>(events, parameters)
    } else {
        create_time_table_from_events::<Var, -1>(events, parameters)
    }
}

/// Creates a list of all the events (for the starts and ends of mandatory parts) of all the
/// tasks defined in `parameters`.
///
/// The events are returned in chonological order, if a tie between time points occurs then this
/// is resolved by placing the events which signify the ends of mandatory parts first (if the
/// tie is between events of the same type then the tie-breaking is done on the id in
/// non-decreasing order).
fn create_events<Var: IntegerVariable + 'static, Context: ReadDomains>(
    context: Context,
    parameters: &CumulativeParameters<Var>,
) -> Vec<Event<Var>> {
    // First we create a list of events with which we will create the time-table
    let mut events: Vec<Event<Var>> = Vec::new();
    // Then we go over every task
    for task in parameters.tasks.iter() {
        let upper_bound = context.upper_bound(&task.start_variable);
        let lower_bound = context.lower_bound(&task.start_variable);
        if upper_bound < lower_bound + task.processing_time {
            // The task has a mandatory part, we need to add the appropriate events to the
            // events list

            // Thus we first add an event for the start of a mandatory part (with positive
            // resource usage)
            events.push(Event {
                time_stamp: upper_bound,
                change_in_resource_usage: task.resource_usage,
                task: Rc::clone(task),
            });

            // Then we create an event for the end of a mandatory part (with negative resource
            // usage)
            events.push(Event {
                time_stamp: lower_bound + task.processing_time,
                change_in_resource_usage: -task.resource_usage,
                task: Rc::clone(task),
            });
        }
    }
    // We will go over the events in chronological order (non-decreasing time_stamp);
    // this allows us to build the time-table in a single pass
    events.sort_by(|a, b| {
        match a.time_stamp.cmp(&b.time_stamp) {
            // If the time_stamps are equal then we first go through the ends of the mandatory
            // parts. This allows us to build smaller explanations by ensuring
            // that we report an error as soon as it can be found
            std::cmp::Ordering::Equal => {
                if a.change_in_resource_usage.signum() != b.change_in_resource_usage.signum() {
                    // If `a` is the start (end) of a mandatory part and `b` is the end (start)
                    // of a mandatory part then we need to ensure that
                    // we go through the end of the mandatory part first
                    a.change_in_resource_usage.cmp(&b.change_in_resource_usage)
                } else {
                    // If both events are starts or both events are ends then we sort on the
                    // task id for easier reproducibility
                    a.task.id.unpack().cmp(&b.task.id.unpack())
                }
            }
            other_ordering => other_ordering,
        }
    });

    events
}

/// Creates a time-table based on the provided `events` (which are assumed to be sorted
/// chronologically, with tie-breaking performed in such a way that the ends of mandatory parts
/// are before the starts of mandatory parts).
///
/// `NO_INTERVAL` is the mark for "no interval is open"; in Pumpkin it is always -1.
fn create_time_table_from_events<Var: IntegerVariable + 'static, const NO_INTERVAL: i32>(
    events: Vec<Event<Var>>,
    parameters: &CumulativeParameters<Var>,
) -> Result<OverIntervalTimeTableType<Var>, PropagatorConflict> {
    let mut time_table: OverIntervalTimeTableType<Var> = Default::default();
    // The tasks which are contributing to the current profile under consideration
    let mut current_profile_tasks: Vec<Rc<Task<Var>>> = Vec::new();
    // The cumulative resource usage of the tasks which are contributing to the current profile
    // under consideration
    let mut current_resource_usage: i32 = 0;
    // The beginning of the current interval under consideration
    let mut start_of_interval: i32 = NO_INTERVAL;
    // Determines whether a conflict has occurred
    let mut is_conflicting = false;

    // We go over all the events and create the time-table
    for event in events {
        if start_of_interval == NO_INTERVAL {
            // A new profile needs to be started
            //
            // We thus assign the start of the interval to the time_stamp of the event, add its
            // resource usage and add it to the contributing tasks
            start_of_interval = event.time_stamp;
            current_resource_usage = event.change_in_resource_usage;
            current_profile_tasks.push(event.task);
        } else {
            // A profile is currently being created

            // We have first traversed all of the ends of mandatory parts, meaning that any
            // overflow will persist after processing all events at this time-point
            if current_resource_usage > parameters.capacity {
                is_conflicting = true;
            }

            // Potentially we need to end the current profile and start a new one due to the
            // addition/removal of the current task
            if start_of_interval != event.time_stamp {
                let new_profile = ResourceProfile {
                    start: start_of_interval,
                    end: event.time_stamp - 1,
                    profile_tasks: current_profile_tasks.clone(),
                    height: current_resource_usage,
                };
                if is_conflicting {
                    // We have found a conflict and the profile has been ended, we can report the
                    // conflict using the current profile
                    return Err(create_conflict_explanation(&new_profile));
                } else {
                    // We end the current profile, creating a profile from [start_of_interval,
                    // time_stamp)
                    time_table.push(new_profile);
                }
            }
            // Process the current event, note that `change_in_resource_usage` can be negative
            current_resource_usage += event.change_in_resource_usage;
            if current_resource_usage == 0 {
                // No tasks have an active mandatory at the current `time_stamp`
                // We can thus reset the start of the interval and remove all profile tasks
                start_of_interval = NO_INTERVAL;
                current_profile_tasks.clear();
            } else {
                // There are still tasks which have a mandatory part at the current time-stamp
                // We thus need to start a new profile
                start_of_interval = event.time_stamp;
                if event.change_in_resource_usage < 0 {
                    // The mandatory part of a task has ended, we should thus remove it from the
                    // contributing tasks
                    let _ = current_profile_tasks.remove(
                        current_profile_tasks
                            .iter()
                            .position(|current_task| {
                                current_task.id.unpack() == event.task.id.unpack()
                            })
                            .expect("Task should have been found in `current_profile`"),
                    );
                } else {
                    // The mandatory part of a task has started, we should thus add it to the
                    // set of contributing tasks
                    //
                    // We add the task even if we are already conflicting so that we can pick the
                    // tasks which are used for the conflict explanation
                    current_profile_tasks.push(event.task);
                }
            }
        }
    }
    Ok(time_table)
}
