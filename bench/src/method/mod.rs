//! The product's method in plain Rust: guards as rules, facts that are known and then settled, joins by rows, a table of moves, and levels by it.

mod engine;
mod levels;
mod object;
mod replay;
mod row;
mod strike;
pub mod text;

pub use levels::analyze;
pub use object::{game, way};
pub use strike::strikes;

/// The place at which a run breaks, or none. Seven labels make 127 non-empty states at most; with more, 255 objects may have as many states.
pub fn replay(m: &text::Model, run: &[u32]) -> Option<usize> {
    if m.labels.len() <= 7 {
        replay::Desk::<128, 2>::new(m).run(run)
    } else {
        replay::Desk::<256, 4>::new(m).run(run)
    }
}
