//! The options of a test program, each a name and a number after it.

/// The number given for each of these names, or none if something else was given.
pub fn numbers<const N: usize>(mut given: impl Iterator<Item = String>, names: [&str; N]) -> Option<[Option<u64>; N]> {
    let mut numbers = [None; N];
    while let Some(name) = given.next() {
        let at = names.iter().position(|&known| known == name)?;
        numbers[at] = Some(given.next()?.parse().ok()?);
    }
    Some(numbers)
}
