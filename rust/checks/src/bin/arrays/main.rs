//! Searches the checker's own middle code for arrays. The kit keeps it in each built library, with the type of every
//! result, parameter and local, inferred ones too, and the fields of every record that they use; tests/memory/run hands
//! it in, in a file CRATE.mir for each crate.
//!
//!     arrays signals FILE.mir...      fails if an array or a slice of signals is anywhere: its elements are signals,
//!                                     or hold one; but for an array of parts, as a model has it
//!     arrays declared FILE.rt...      the same of the records that the sources declare, which no function may use
//!     arrays sources FILE...          fails if a function of the sources, FILE.rt, is not in the middle code,
//!                                     FILE.mir, or one of the middle code is neither of the sources nor made of them
//!     arrays plan PLAN FILE.mir...    fails if PLAN, docs/MEMORY.md, does not name just the arrays, and the records
//!                                     with arrays, that the functions of the crates hold by value
//!     arrays rows FILE.mir...         prints what the plan has to name
//!
//! A generic function is looked at with what each call gives for its parameters, and where no call is known with any
//! type: then an array of it is one of signals too, and has no bytes that could be planned. What a closure captures is
//! the record that its functions are given.
//!
//! Status 1 and a line for each thing found.

mod code;
mod declared;
mod instances;
mod middle;
mod plan;
mod sources;

use std::process::exit;

/// Says what failed, and ends the program.
fn failed(what: &str) -> ! {
    println!("memory: failed: {what}");
    exit(1)
}

/// Runs the search that the first argument names.
fn main() {
    let words: Vec<String> = std::env::args().skip(1).collect();
    let found = match words.first().map(String::as_str) {
        Some("signals") => code::search_signals(&words[1..]),
        Some("declared") => declared::search_declared(&words[1..]),
        Some("sources") => sources::compare_sources(&words[1..]),
        Some("plan") if words.len() > 2 => plan::compare_plan(&words[1], &words[2..]),
        Some("rows") => {
            plan::print_rows(&words[1..]);
            Vec::new()
        }
        _ => failed("arrays signals | declared | sources | plan PLAN | rows, and the files"),
    };
    for line in &found {
        println!("memory: {line}");
    }
    exit(i32::from(!found.is_empty()));
}
