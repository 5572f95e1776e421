//! What the proved calls refuse, told in words: which part, port, operand or step it is about, by the names and the
//! places of what was written. Each message is one line, without the `refused N` that is before it.
mod advance;
mod laid;
mod load;
mod operands;
mod wires;
mod words;

pub use advance::advance_refused;
pub use load::{load_refused, place_of, score_refused};
pub use words::counted;
