//! The Rust that the pass planner is ported from, run with small stand-ins, and a plan, a command
//! program, a session generator and a comparison on top of it.

// Taken from Pumpkin.
pub mod checks;
pub mod insertion;
pub mod mandatory_part_adjustments;
pub mod removal;
pub mod time_table_over_interval;
pub mod time_table_over_interval_incremental;
pub mod time_table_util;
pub mod util;

// What the functions taken over stand on.
pub mod rules;
pub mod stand_ins;

// Document 01 on top of them.
pub mod command;
pub mod plan;

// Random sessions, and the comparison with another program.
pub mod compare;
pub mod generate;
pub mod random;
pub mod script;
pub mod shapes;

#[cfg(test)]
mod tests;
