//! Stand-ins for the types of Pumpkin that the functions taken over use; only what they use of them.

use std::rc::Rc;

use crate::rules::Rules;

/// The number of a task, from 0.
#[derive(Clone, Copy, Debug, PartialEq, Eq)]
pub struct LocalId(u32);

impl LocalId {
    /// The id with this number.
    pub fn from(value: u32) -> Self {
        LocalId(value)
    }

    /// The number of this id.
    pub fn unpack(self) -> u32 {
        self.0
    }
}

/// Something whose bounds can be read from the domains.
pub trait IntegerVariable: Clone {
    /// The place of its bounds in the domains.
    fn place(&self) -> usize;
}

/// The start of a job: the place of the job in the load.
#[derive(Clone, Copy, Debug)]
pub struct StartVariable(pub usize);

impl IntegerVariable for StartVariable {
    fn place(&self) -> usize {
        self.0
    }
}

/// The current start bounds, least and greatest, of every job of the load.
#[derive(Clone, Copy, Debug)]
pub struct Domains<'a> {
    bounds: &'a [(i32, i32)],
}

impl<'a> Domains<'a> {
    /// Domains over these bounds.
    pub fn new(bounds: &'a [(i32, i32)]) -> Self {
        Domains { bounds }
    }
}

/// Read access to domains.
pub trait ReadDomains {
    /// The least value of the variable.
    fn lower_bound<Var: IntegerVariable>(&self, variable: &Var) -> i32;
    /// The greatest value of the variable.
    fn upper_bound<Var: IntegerVariable>(&self, variable: &Var) -> i32;
}

impl ReadDomains for Domains<'_> {
    fn lower_bound<Var: IntegerVariable>(&self, variable: &Var) -> i32 {
        self.bounds[variable.place()].0
    }

    fn upper_bound<Var: IntegerVariable>(&self, variable: &Var) -> i32 {
        self.bounds[variable.place()].1
    }
}

/// A task as it is handed in.
#[derive(Clone, Debug)]
pub struct ArgTask<Var> {
    /// The variable for its start.
    pub start_time: Var,
    /// How long it runs.
    pub processing_time: i32,
    /// What it draws while it runs.
    pub resource_usage: i32,
}

/// A task that was kept, with its id.
#[derive(Clone, Debug)]
pub struct Task<Var> {
    /// The variable for its start.
    pub start_variable: Var,
    /// How long it runs.
    pub processing_time: i32,
    /// What it draws while it runs.
    pub resource_usage: i32,
    /// Its place among the tasks.
    pub id: LocalId,
}

/// What the constraint is about: tasks and capacity; `rules` stands where Pumpkin has options.
#[derive(Clone, Debug)]
pub struct CumulativeParameters<Var> {
    /// The tasks, each at the place that is its id.
    pub tasks: Box<[Rc<Task<Var>>]>,
    /// What all running tasks may draw together.
    pub capacity: i32,
    /// Which exceptions of document 01 are repaired.
    pub rules: Rules,
}

impl<Var> CumulativeParameters<Var> {
    /// Parameters with each task shared.
    pub fn new(tasks: Vec<Task<Var>>, capacity: i32, rules: Rules) -> Self {
        CumulativeParameters {
            tasks: tasks.into_iter().map(Rc::new).collect(),
            capacity,
            rules,
        }
    }
}

/// A row of the time-table: the tasks that must run from `start` to `end`, both inclusive.
#[derive(Clone, Debug)]
pub struct ResourceProfile<Var> {
    /// The first instant.
    pub start: i32,
    /// The last instant.
    pub end: i32,
    /// The tasks, in list order.
    pub profile_tasks: Vec<Rc<Task<Var>>>,
    /// The sum of the usages of the tasks.
    pub height: i32,
}

/// The bounds of a task before and after an update.
#[derive(Clone, Debug)]
pub struct UpdatedTaskInfo<Var> {
    /// The task.
    pub task: Rc<Task<Var>>,
    /// Its least start before the update.
    pub old_lower_bound: i32,
    /// Its greatest start before the update.
    pub old_upper_bound: i32,
    /// Its least start after the update.
    pub new_lower_bound: i32,
    /// Its greatest start after the update.
    pub new_upper_bound: i32,
}

/// What is reported of a row higher than the capacity.
#[derive(Clone, Copy, Debug, PartialEq, Eq)]
pub struct PropagatorConflict {
    /// The row's first instant.
    pub start: i32,
    /// The row's last instant.
    pub end: i32,
    /// The row's height.
    pub height: i32,
}

/// Stands for the explanation of a conflict: the row alone.
pub(crate) fn create_conflict_explanation<Var>(
    profile: &ResourceProfile<Var>,
) -> PropagatorConflict {
    PropagatorConflict {
        start: profile.start,
        end: profile.end,
        height: profile.height,
    }
}
