//! The records of choices, landings and figures: ids that are cited, lines and landings that are too long, rows of a
//! history that are none.

use std::collections::HashSet;

/// How many columns a line of these pages has at most, and how many lines a landing.
const COLUMNS: usize = 200;
const LINES: usize = 10;

/// The head of a history of figures.
const HISTORY: &str = "date,landing,what,value,unit,conditions";

/// Whether a word is an id: a capital letter and a number.
fn is_id(word: &str) -> bool {
    let number = word.strip_prefix(|c: char| c.is_ascii_uppercase()).unwrap_or_default();
    !number.is_empty() && number.chars().all(|c| c.is_ascii_digit())
}

/// The ids of the entries of docs/DECISIONS.md, in order.
fn ids(page: &str) -> Vec<&str> {
    let entries = page.lines().filter_map(|line| line.strip_prefix("- **"));
    entries.filter_map(|entry| entry.split([' ', '*', '.']).next()).filter(|id| is_id(id)).collect()
}

/// The words of a text outside code that are ids.
fn cited(text: &str) -> Vec<&str> {
    let plain = text.split('`').step_by(2);
    plain.flat_map(|part| part.split(|c: char| !c.is_alphanumeric())).filter(|word| is_id(word)).collect()
}

/// What is wrong with docs/DECISIONS.md: ids twice, ids that are cited and are not there.
pub fn decision_faults(page: &str) -> Vec<String> {
    let (all, mut seen) = (ids(page), HashSet::new());
    let twice = all.iter().filter(|id| !seen.insert(**id)).map(|id| format!("two entries are {id}"));
    let mut faults: Vec<String> = twice.collect();
    if all.is_empty() {
        faults.push("no entry has an id".to_string());
    }
    let known: HashSet<&str> = all.iter().copied().collect();
    faults.extend(cited(page).iter().filter(|id| !known.contains(**id)).map(|id| format!("no entry is {id}")));
    faults
}

/// The ids that a text cites of docs/DECISIONS.md, right after the page's name, and that no entry has.
pub fn unknown_ids(page: &str, text: &str) -> Vec<String> {
    let known: HashSet<&str> = ids(page).into_iter().collect();
    let after = text.split("DECISIONS.md").skip(1);
    let named = after.filter_map(|rest| rest.split(|c: char| !c.is_alphanumeric()).find(|word| !word.is_empty()));
    named.filter(|word| is_id(word) && !known.contains(word)).map(str::to_string).collect()
}

/// The lines of a page that are too long.
pub fn long_lines(page: &str) -> Vec<String> {
    let lines = page.lines().enumerate().filter(|(_, line)| line.chars().count() > COLUMNS);
    lines.map(|(at, _)| format!("line {} has more than {COLUMNS} columns", at + 1)).collect()
}

/// The landings of CHANGELOG.md that have too many lines.
pub fn long_landings(page: &str) -> Vec<String> {
    let landings = page.split("\n## ").skip(1).map(|landing| landing.lines());
    let long = landings.filter(|lines| lines.clone().skip(1).filter(|line| !line.is_empty()).count() > LINES);
    long.filter_map(|mut lines| lines.next()).map(|name| format!("more than {LINES} lines: {name}")).collect()
}

/// The fields of a row of comma separated values, of which some are in quotes.
fn fields(row: &str) -> Vec<String> {
    let (mut fields, mut quoted) = (vec![String::new()], false);
    for c in row.chars() {
        match c {
            '"' => quoted = !quoted,
            ',' if !quoted => fields.push(String::new()),
            _ => fields.last_mut().expect("there is a first field").push(c),
        }
    }
    fields
}

/// Whether a row has a date, a landing, what was measured, a number, its unit and its conditions.
fn is_measured(row: &str) -> bool {
    let fields = fields(row);
    let date = |text: &String| text.len() == 10 && text.split('-').all(|part| part.parse::<u32>().is_ok());
    let whole = fields.len() == 6 && fields.iter().all(|field| !field.is_empty());
    whole && date(&fields[0]) && fields[3].parse::<f64>().is_ok()
}

/// The rows of a history of figures that are none.
pub fn history_faults(text: &str) -> Vec<String> {
    let mut rows = text.lines().enumerate();
    let head = rows.next().is_some_and(|(_, row)| row == HISTORY);
    let mut faults: Vec<String> = rows.filter(|(_, row)| !is_measured(row)).map(|(at, _)| no_row(at + 1)).collect();
    if !head {
        faults.push(format!("its head is not {HISTORY}"));
    }
    faults
}

/// What is said of a row that is none.
fn no_row(line: usize) -> String {
    format!("line {line} is no row of {HISTORY}")
}
