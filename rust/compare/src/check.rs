//! What a comparison should reach, each by its name. Assumes nothing.

pub struct Check {
    pub name: String,
    pub state: State,
}

#[derive(Clone, Copy, PartialEq, Debug)]
pub enum State {
    /// Reached, and all agreed.
    Good,
    /// Not reached.
    Missed,
    /// Reached, and something differed, or reached although it cannot be.
    Bad,
}

impl Check {
    pub fn reached(name: String, is_reached: bool) -> Check {
        Check { name, state: if is_reached { State::Good } else { State::Missed } }
    }
}

/// The names of those in this state.
pub fn names(checks: &[Check], state: State) -> Vec<String> {
    checks.iter().filter(|check| check.state == state).map(|check| check.name.clone()).collect()
}
