//! The plan's tables of arrays, `| Array | Bytes | Functions | ...`, and of records, `| Record | Bytes | Crates | ...`,
//! beside what the functions hold.

use crate::code::{read, Code};
use crate::failed;
use crate::middle::Type;
use std::collections::{BTreeMap, BTreeSet};

struct Row {
    line: usize,
    names: Vec<String>,
    bytes: Vec<u64>,
    places: Vec<String>,
}

/// What is between backquotes.
fn quoted(cell: &str) -> Vec<String> {
    cell.split('`').skip(1).step_by(2).map(str::to_string).collect()
}

/// The rows of the plan's tables with this heading.
fn rows(plan: &str, heading: [&str; 3]) -> Vec<Row> {
    let mut found = Vec::new();
    let mut inside = false;
    for (line, text) in plan.lines().enumerate() {
        let cells: Vec<&str> = text.split('|').map(str::trim).collect();
        if cells.len() < 5 {
            inside = false;
        } else if cells[1..4] == heading {
            inside = true;
        } else if inside && !cells[1].starts_with("---") {
            let bytes = cells[2].replace(',', "").split(" to ").filter_map(|number| number.parse().ok()).collect();
            found.push(Row { line: line + 1, names: quoted(cells[1]), bytes, places: quoted(cells[3]) });
        }
    }
    found
}

/// An array's element and length, as the plan spells it.
fn spelled(name: &str) -> Option<(&str, u64)> {
    let (element, length) = name.strip_prefix('[')?.strip_suffix(']')?.rsplit_once("; ")?;
    Some((element, length.parse().ok()?))
}

impl Row {
    /// Whether the row is of this array: the one that it names, or one from the first length that it names to the
    /// second.
    fn names(&self, array: &str) -> bool {
        match (self.names.as_slice(), spelled(array)) {
            ([one], _) => one == array,
            ([least, most], Some((element, length))) => match (spelled(least), spelled(most)) {
                (Some((of, from)), Some((also, to))) => {
                    element == of && element == also && from <= length && length <= to
                }
                _ => false,
            },
            _ => false,
        }
    }
}

/// Whether a pattern, which may have one `*` in it for any letters, names a function.
fn within(pattern: &str, function: &str) -> bool {
    pattern.split_once('*').map_or(pattern == function, |(start, end)| {
        function.strip_prefix(start).is_some_and(|rest| rest.ends_with(end))
    })
}

/// The differences between the plan's arrays and those that functions hold.
fn compare_arrays(file: &str, planned: &[Row], arrays: &[(String, u64, String)]) -> Vec<String> {
    let mut found = Vec::new();
    for (array, bytes, function) in arrays {
        let named =
            planned.iter().any(|row| row.names(array) && row.places.iter().any(|pattern| within(pattern, function)));
        if !named {
            found.push(format!("{function} holds {array}, {bytes} bytes, which {file} does not name"));
        }
    }
    for row in planned {
        for pattern in &row.places {
            if !arrays.iter().any(|(array, _, function)| row.names(array) && within(pattern, function)) {
                found.push(format!("{file}:{}: {pattern} holds no {}", row.line, row.names.join(" to ")));
            }
        }
        let bytes: Vec<u64> = row
            .names
            .iter()
            .filter_map(|name| arrays.iter().find(|(array, _, _)| array == name).map(|(_, bytes, _)| *bytes))
            .collect();
        if row.names.is_empty() || row.places.is_empty() || bytes != row.bytes {
            found.push(format!("{file}:{}: {} is {bytes:?} bytes", row.line, row.names.join(" to ")));
        }
    }
    found
}

/// The bytes of what functions hold, each with its name. Of any type they are not known, and such a thing cannot be
/// planned.
fn known_bytes(code: &Code, of: &Type) -> Result<u64, String> {
    code.bytes(of).ok_or_else(|| format!("{of} is held by value, and nobody gives a type or a length for it"))
}

/// The differences between the plan's records and those with arrays that functions hold.
fn compare_records(file: &str, planned: &[Row], code: &Code) -> Vec<String> {
    let mut holders = BTreeMap::new();
    let mut found = Vec::new();
    for (of, crates) in code.holders() {
        match known_bytes(code, &of) {
            Ok(bytes) => drop(holders.insert(of.to_string(), (bytes, crates))),
            Err(unknown) => found.push(unknown),
        }
    }
    for (name, (bytes, crates)) in &holders {
        let held: Vec<&str> = crates.iter().map(String::as_str).collect();
        let held = held.join(", ");
        match planned.iter().find(|row| row.names == [name.clone()]) {
            None => {
                found.push(format!("{name}, {bytes} bytes, is held by value in {held}, and {file} does not name it"))
            }
            Some(row) if row.bytes != [*bytes] || row.places.iter().cloned().collect::<BTreeSet<_>>() != *crates => {
                found.push(format!("{file}:{}: {name} has {bytes} bytes and is held by value in {held}", row.line))
            }
            _ => (),
        }
    }
    for row in planned.iter().filter(|row| row.names.len() != 1 || !holders.contains_key(&row.names[0])) {
        found.push(format!("{file}:{}: no function holds {}", row.line, row.names.join(", ")));
    }
    found
}

/// What the plan names and the code has not, and the reverse; a line for each.
pub fn compare_plan(file: &str, files: &[String]) -> Vec<String> {
    let code = read(files);
    let plan = std::fs::read_to_string(file).unwrap_or_else(|_| failed(&format!("{file} cannot be read")));
    let mut arrays: Vec<(String, u64, String)> = Vec::new();
    let mut found = Vec::new();
    for (of, function) in code.arrays() {
        match known_bytes(&code, &of) {
            Ok(bytes) => arrays.push((of.to_string(), bytes, function)),
            Err(unknown) => found.push(format!("{function}: {unknown}")),
        }
    }
    found.extend(compare_arrays(file, &rows(&plan, ["Array", "Bytes", "Functions"]), &arrays));
    found.extend(compare_records(file, &rows(&plan, ["Record", "Bytes", "Crates"]), &code));
    let records = code.holders().len();
    if arrays.is_empty() || records == 0 {
        found.push("no function holds an array: the search looks at another form".to_string());
    }
    if found.is_empty() {
        println!("{} arrays and {records} records with arrays", arrays.len());
    }
    found
}

/// Bytes as a row has them: `4,960`.
fn cell(bytes: Option<u64>) -> String {
    let Some(number) = bytes else { return "not known".to_string() };
    let digits = number.to_string();
    let comma = |at: usize| if at > 0 && (digits.len() - at).is_multiple_of(3) { "," } else { "" };
    digits.char_indices().map(|(at, digit)| format!("{}{digit}", comma(at))).collect()
}

/// What a derived Debug prints is bytes in its function, whose name ends so.
const DEBUG: &str = "Debug::fmt";

/// Prints one row for the bytes of all derived Debugs: the fewest and the most, and a pattern for each crate.
fn print_debug_row(code: &Code, arrays: &[(Type, String)]) {
    let lengths: BTreeSet<u64> = arrays.iter().filter_map(|(of, _)| code.bytes(of)).collect();
    let crates: BTreeSet<String> =
        arrays.iter().filter_map(|(_, function)| Some(format!("`{}::*{DEBUG}`", code.crate_of(function)?))).collect();
    if let (Some(least), Some(most)) = (lengths.first(), lengths.last()) {
        let crates: Vec<String> = crates.into_iter().collect();
        println!("| `[u8; {least}]` to `[u8; {most}]` | {least} to {most} | {} | |", crates.join(", "));
    }
}

/// Prints the rows that the plan has to have.
pub fn print_rows(files: &[String]) {
    let code = read(files);
    let bytes = |of: &Type| matches!(of, Type::Array(element, _) if **element == Type::Number(8));
    let (debug, others): (Vec<_>, Vec<_>) =
        code.arrays().into_iter().partition(|(of, function)| bytes(of) && function.ends_with(DEBUG));
    print_debug_row(&code, &debug);
    let mut by_array: BTreeMap<(Type, String), Vec<String>> = BTreeMap::new();
    for (of, function) in others {
        let of_crate = function.split("::").next().unwrap().to_string();
        by_array.entry((of, of_crate)).or_default().push(format!("`{function}`"));
    }
    for ((of, _), functions) in &by_array {
        println!("| `{of}` | {} | {} | |", cell(code.bytes(of)), functions.join(", "));
    }
    for (of, crates) in code.holders() {
        let crates: Vec<String> = crates.iter().map(|name| format!("`{name}`")).collect();
        println!("| `{of}` | {} | {} | |", cell(code.bytes(&of)), crates.join(", "));
    }
}
