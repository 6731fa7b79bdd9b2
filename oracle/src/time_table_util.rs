//! Follows cumulative/time_table/time_table_util.rs of ConSol-Lab/Pumpkin 5be28fb3ad; MIT OR Apache-2.0.

/// Determines whether the interval \[lower_bound, upper_bound\) overlaps with the interval \[start,
/// end\]
pub(crate) fn has_overlap_with_interval(
    lower_bound: i32,
    upper_bound: i32,
    start: i32,
    end: i32,
) -> bool {
    start < upper_bound && lower_bound <= end
}
