//! Call scripts: `tests/scripts/README.md` says what a script is.

pub mod alterations;
pub mod implementations;
pub mod registers;
