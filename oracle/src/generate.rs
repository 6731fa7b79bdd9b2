//! Random sessions, each determined by a seed and its number.

use crate::random::Random;
use crate::script::Script;
use crate::shapes::Shape;
use crate::shapes::SHAPES;

/// Leads any session back to the start: the first load empties the list of jobs, the second gives
/// a plan without tasks, with capacity 0 and a live, empty table, which is the fresh plan.
pub const RESET: &[u8] = b"L 0\nL 0\n";

/// The session with this number, of the shape given or else of the one whose turn it is.
pub fn session(seed: u64, number: u64, shape: Option<&Shape>) -> Vec<u8> {
    let turn = (number % SHAPES.len() as u64) as usize;
    let mut script = Script::new(Random::new(seed, number));
    (shape.unwrap_or(&SHAPES[turn]).write)(&mut script);
    script.into_text()
}

/// The sessions of a range of numbers; the last line of the last one lacks its line feed for about
/// half of the ranges.
pub fn sessions(seed: u64, numbers: std::ops::Range<u64>, shape: Option<&Shape>) -> Vec<Vec<u8>> {
    let unended = Random::new(seed, numbers.end).one_in(2);
    let mut sessions: Vec<Vec<u8>> = numbers.map(|n| session(seed, n, shape)).collect();
    if let (true, Some(last)) = (unended, sessions.last_mut()) {
        last.pop();
    }
    sessions
}

/// Sessions as one input, each after the first led by the lines that start afresh.
pub fn joined(sessions: &[Vec<u8>]) -> Vec<u8> {
    sessions.join(RESET)
}
