//! A second engine for RL, made from the papers apart from the proved one, and its comparison with other engines.

pub mod broken;
pub mod broken_editors;
pub mod broken_firing;
pub mod broken_marks;
pub mod broken_print;
pub mod broken_reading;
pub mod broken_strata;
pub mod cards;
pub mod compare;
pub mod day_lines;
pub mod days;
pub mod editor_kinds;
pub mod editors;
pub mod engine;
pub mod fault;
pub mod firing_checks;
pub mod gen;
pub mod gen_editors;
pub mod gen_large;
pub mod gen_marks;
pub mod gen_print;
pub mod gen_rules;
pub mod gen_tables;
pub mod gen_text;
pub mod kinds;
pub mod large_kinds;
pub mod lent;
pub mod listing;
pub mod mark_checks;
pub mod mark_kinds;
pub mod mark_lines;
pub mod marks;
pub mod none_kinds;
pub mod orders;
pub mod other_strata;
pub mod print;
pub mod print_lines;
pub mod program_cases;
#[path = "../../../examples/rust/raw.rs"]
pub mod raw;
pub mod read;
pub mod read_lines;
pub mod response;
pub mod rule_set;
pub mod selections;
pub mod strata;
pub mod table;
pub mod table31;
pub mod table_kinds;
pub mod table_lines;
pub mod text;

pub use raw::Refusal;

/// The refusal of a number and a second number.
pub fn refusal(number: u8, second: usize) -> Refusal {
    Refusal { number, second }
}
