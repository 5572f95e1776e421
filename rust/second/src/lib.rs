//! A second implementation of the rehearsal master, by document 01 and the requests of document 02 alone, and sharing
//! nothing with the verified one. It is what the verified program is compared with, and the baseline of the benchmark.

pub mod advance;
pub mod load;
pub mod model;
mod order;
pub mod preview;
pub mod printsheet;
pub mod rehearse;
pub mod save;
pub mod sheet;
#[cfg(test)]
mod tests;
pub mod writing;

pub use advance::{advance, Answer};
pub use load::{load, Accepted, Loaded, Refusal};
pub use model::{Kind, Model, Part, Point, Side, Signal};
pub use preview::preview;
pub use printsheet::{printsheet, PRINTSHEET_LIMIT};
pub use rehearse::{input, rehearse, INPUT_LIMIT};
pub use save::{save, saved};
pub use sheet::{sheet, Shown, SHEET_LINE};
pub use writing::Written;
