//! What the text of a table calls the kinds of part, and which operands and ports each names, as the table in
//! docs/MANUAL.md has it.

/// A kind: the word for it, the operands that it names, how many ports it has, and which of them are direct.
#[derive(Debug)]
pub struct KindWords {
    pub word: &'static str,
    pub operands: &'static [&'static str],
    pub ports: u8,
    pub direct: &'static [u8],
}

const fn kind(word: &'static str, operands: &'static [&'static str], ports: u8, direct: &'static [u8]) -> KindWords {
    KindWords { word, operands, ports, direct }
}

/// The kinds, by their numbers.
pub const KIND_WORDS: [KindWords; 13] = [
    kind("constant", &["a"], 0, &[]),
    kind("gain", &["a"], 1, &[0]),
    kind("adder", &[], 2, &[0, 1]),
    kind("square", &["a", "b", "p"], 0, &[]),
    kind("pulse", &["a", "p"], 0, &[]),
    kind("delay", &[], 1, &[]),
    kind("integrator", &["a"], 1, &[]),
    kind("reset-integrator", &["a"], 2, &[1]),
    kind("detector", &["p"], 1, &[]),
    kind("hold", &[], 1, &[0]),
    kind("sampler", &[], 2, &[0, 1]),
    kind("drive", &["a", "spans"], 1, &[]),
    kind("clapper", &["a", "b"], 1, &[]),
];

impl KindWords {
    /// Whether it names an operand. A preference every kind may have.
    pub fn names(&self, operand: &str) -> bool {
        operand == "pref" || self.operands.contains(&operand)
    }
}

/// The kind with a number.
pub fn of_number(number: u8) -> Option<&'static KindWords> {
    KIND_WORDS.get(usize::from(number))
}

/// The number of the kind with a word.
pub fn of_word(word: &str) -> Option<u8> {
    KIND_WORDS.iter().position(|kind| kind.word == word).map(|number| number as u8)
}

/// The name of a part that has none of its own: its kind and its number.
pub fn default_name(kind: u8, number: usize) -> String {
    format!("{}{number}", of_number(kind).map_or("part", |kind| kind.word))
}
