//! The command that rehearses. For plain bytes it runs the proved programs; text tables, explanations and columns are
//! made over the proved calls (the feature `calls`). What is here is plain Rust, tested and not proved: it turns text
//! into the bytes that the proved load judges, and tells in words what the proved programs and calls answer.
#[cfg(feature = "calls")]
pub mod accepted;
pub mod arguments;
#[cfg(feature = "calls")]
pub mod columns;
pub mod command;
pub mod crates;
#[cfg(feature = "calls")]
pub mod explain;
pub mod failure;
pub mod files;
pub mod hex;
pub mod home;
pub mod input;
pub mod kinds;
pub mod messages;
pub mod output;
#[cfg(feature = "calls")]
pub mod play;
pub mod program;
pub mod reader;
pub mod ready;
pub mod system;
pub mod usage;
#[cfg(feature = "calls")]
pub mod why;
#[cfg(feature = "calls")]
pub mod writer;
