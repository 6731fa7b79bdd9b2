//! Follows cumulative/utils/util.rs of ConSol-Lab/Pumpkin 5be28fb3ad; MIT OR Apache-2.0.
//!
//! Contains common methods for all of the propagators of the cumulative constraint; this includes
//! methods for propagating but also methods related to creating the
//! input parameters.

use crate::stand_ins::ArgTask;
use crate::stand_ins::IntegerVariable;
use crate::stand_ins::LocalId;
use crate::stand_ins::Task;

/// Based on the [`ArgTask`]s which are passed, it creates and returns [`Task`]s.
///
/// It sorts [`Task`]s on non-decreasing resource usage and removes [`Task`]s with resource usage 0.
pub fn create_tasks<Var: IntegerVariable + 'static>(arg_tasks: &[ArgTask<Var>]) -> Vec<Task<Var>> {
    // We order the tasks by non-increasing resource usage, this allows certain optimizations
    let mut ordered_tasks = arg_tasks.to_vec();
    ordered_tasks.sort_by_key(|task| -task.resource_usage);

    let mut id = 0;
    ordered_tasks
        .iter()
        .filter_map(|x| {
            // We only add tasks which have a non-zero resource usage
            if x.resource_usage > 0 && x.processing_time > 0 {
                let return_value = Some(Task {
                    start_variable: x.start_time.clone(),
                    processing_time: x.processing_time,
                    resource_usage: x.resource_usage,
                    id: LocalId::from(id),
                });

                id += 1;
                return_value
            } else {
                None
            }
        })
        .collect::<Vec<Task<Var>>>()
}
