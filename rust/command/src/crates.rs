//! How far a build of crates is. `rt` builds the crates below one, each after those that it uses, and then that one. It
//! passes over in silence what did not change. Of each other crate it says first how many jobs it chose for it.
use crate::messages::Messages;
use std::collections::HashMap;
use std::fs;
use std::path::Path;
use std::time::Instant;

/// The crates of a build in the order in which `rt` comes to them, and the one that it is at, with when it came there.
pub struct Crates {
    order: Vec<String>,
    now: Option<(String, Instant)>,
}

impl Crates {
    /// A crate and all that it depends on.
    pub fn of(root: &Path, name: &str) -> Crates {
        let list = fs::read_to_string(root.join("crates.txt")).unwrap_or_default();
        Crates { order: in_order(&list, name), now: None }
    }

    /// Hears a line of `rt`. Where it begins another crate, the one before is proved, and the next one is told.
    pub fn hear(&mut self, line: &str, messages: &mut Messages) {
        let Some(name) = begun(line) else { return };
        if self.now.as_ref().is_some_and(|(now, _)| now == name) {
            return;
        }
        self.proved(messages);
        let Some(at) = self.order.iter().position(|known| known == name) else { return };
        messages.say(&format!("rehearse: {} of {}: {name}", at + 1, self.order.len()));
        self.now = Some((name.to_string(), Instant::now()));
    }

    /// Shows which crate is being proved.
    pub fn look(&self, messages: &mut Messages) {
        if let Some((name, since)) = &self.now {
            messages.progress(&format!("rehearse: now {name} ({} s)", since.elapsed().as_secs()));
        }
    }

    /// Tells that the crate that `rt` was at is proved.
    pub fn proved(&mut self, messages: &mut Messages) {
        if let Some((name, since)) = self.now.take() {
            messages.say(&format!("rehearse: {name} proved ({} s)", since.elapsed().as_secs()));
        }
    }
}

/// The crate that a line of `rt` begins.
fn begun(line: &str) -> Option<&str> {
    let (_, name) = line.strip_prefix("rt: chose --jobs ")?.split_once(" for ")?;
    Some(name.trim_end())
}

/// A crate after those that it depends on, each after its own.
fn in_order(list: &str, name: &str) -> Vec<String> {
    let lines = list.lines().filter_map(|line| line.split('#').next().unwrap_or_default().split_once(':'));
    let uses: HashMap<&str, Vec<&str>> = lines
        .filter_map(|(head, on)| Some((head.split_whitespace().next()?, on.split_whitespace().collect())))
        .collect();
    let mut order = Vec::new();
    reach(&uses, name, &mut order);
    order
}

/// Puts a crate into the order after those that it uses.
fn reach(uses: &HashMap<&str, Vec<&str>>, name: &str, order: &mut Vec<String>) {
    let Some(on) = uses.get(name) else { return };
    if order.iter().any(|known| known == name) {
        return;
    }
    on.iter().for_each(|below| reach(uses, below, order));
    order.push(name.to_string());
}

#[cfg(test)]
mod tests {
    use super::{begun, in_order};

    #[test]
    fn a_crate_comes_after_what_it_names_and_what_that_names() {
        let list = "# floors\n\na:\nb: a\nc: a # d\nd staticlib: c b  io\ne: d\n";
        assert_eq!(in_order(list, "d"), ["a", "c", "b", "d"]);
        assert_eq!(in_order(list, "a"), ["a"]);
        assert_eq!(in_order(list, "io"), Vec::<String>::new());
    }

    #[test]
    fn rt_begins_a_crate_with_its_jobs() {
        assert_eq!(begun("rt: chose --jobs 2 for laws\n"), Some("laws"));
        assert_eq!(begun("rt: laws: begins with what a check kept\n"), None);
    }
}
