//! A native engine for RL, made for speed, and its measurement beside the proved library.

pub mod alike;
pub mod cards;
pub mod chains;
pub mod draw;
pub mod engine;
pub mod firing;
pub mod input;
pub mod inputs;
pub mod least;
pub mod mark_inputs;
pub mod mark_tables;
pub mod marks;
pub mod measure;
pub mod names;
pub mod print;
pub mod proved;
#[path = "../../../examples/rust/raw.rs"]
pub mod raw;
pub mod read;
pub mod response;
pub mod rng;
pub mod room;
pub mod small;
pub mod strata;
pub mod systems;
pub mod table;
pub mod test31;
pub mod text;

pub use raw::Refusal;

/// The refusal of a number and a second number.
#[inline]
pub fn refusal(number: u8, second: usize) -> Refusal {
    Refusal { number, second }
}
