//! Stand-in: the planner names this trait only in bounds that no recorded call reaches.

pub mod layouts {
    pub trait Backend {}
}
