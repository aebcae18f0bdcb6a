//! The commands, each with its help.

pub mod asbestos;
pub mod class;
pub mod compare;
pub mod explain;
pub mod from;
pub mod game;
pub mod mark;
pub mod page;
pub mod strike;
pub mod way;
