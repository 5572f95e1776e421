//! Test cases: the bytes of tables and scores, named, swept, generated and damaged. A seed and a number give the same
//! case everywhere. Nothing here reads or judges a stream, so that no implementation shares code with its tests.

pub mod damage;
pub mod draft;
pub mod generate;
pub mod named;
pub mod options;
pub mod random;
pub mod swept;

/// The bytes of a case as it is reported, two digits a byte.
pub fn hexadecimal(bytes: &[u8]) -> String {
    bytes.iter().map(|byte| format!("{byte:02x}")).collect()
}
