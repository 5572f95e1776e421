//! Reads a text table: one entry a line, `#` comments, parts and wires by names. What bytes can spell is spelled, for
//! the load to judge; what they cannot spell (a word, kind, name or operand that is none, a number that no field holds)
//! is a fault of its line, and all faults are told. Lines may be in any order: parts are numbered and wants are
//! played as they are.
use crate::command::{Command, NO_PREFERENCE};
use crate::input::{Form, Input, Play};
use crate::kinds::{self, KindWords, KIND_WORDS};
use std::collections::HashMap;
use std::ops::RangeInclusive;

/// What is wrong with a line.
#[derive(Clone, Debug, PartialEq, Eq)]
pub struct Fault {
    pub line: usize,
    pub message: String,
}

/// What a line may be, and what the ranges of numbers are called.
const ENTRIES: &str = "a line is tick, part, wire, want or until";
const MAGNITUDES: &str = "0 to 15";
const VALUES: &str = "-1000000000 to 1000000000";
const TICKS: &str = "1 to 1000000000";
const POINTS: &str = "0 to 1000000000000000000";

/// The last tick, and the longest step that can be wanted: those of the proved calls.
const LAST_TICK: u64 = 1_000_000_000_000_000_000;
const MOST_WANTED: u64 = 1_000_000_000;
#[cfg(feature = "calls")]
const _: () = assert!(LAST_TICK == dozhumek::LAST_TICK && MOST_WANTED == dozhumek::MOST_WANTED);

/// How often a line may want its step.
const MOST_TIMES: u64 = 1_000_000_000;

/// After so many faults no more is read.
const MOST_FAULTS: usize = 1000;

/// How many characters a name may have.
const LONGEST_NAME: usize = 64;

/// How many parts a wire's byte can name.
const NAMEABLE: usize = 256;

/// A wire as it is written.
struct Wire {
    line: usize,
    source: String,
    receiver: String,
    port: u8,
}

/// What was read so far. A part has its command, and the spans after it.
#[derive(Default)]
struct Draft {
    tick: Option<(usize, u8)>,
    parts: Vec<(usize, Command, Vec<u32>)>,
    names: Vec<String>,
    numbers: HashMap<String, usize>,
    wires: Vec<Wire>,
    score: Vec<(usize, Play)>,
    faults: Vec<Fault>,
}

/// The text table in these bytes, or its faults, by their lines: all of them, but for a text that is none.
pub fn read(title: &str, text: &[u8]) -> Result<Input, Vec<Fault>> {
    let mut draft = Draft::default();
    for (number, bytes) in unmarked(text).split(|&byte| byte == b'\n').enumerate() {
        let entry = bytes.strip_suffix(b"\r").unwrap_or(bytes).split(|&byte| byte == b'#').next().unwrap_or_default();
        let result = match std::str::from_utf8(entry) {
            Ok(entry) => draft.entry(number + 1, entry),
            Err(_) => Err("this is not UTF-8 text".to_string()),
        };
        draft.faults.extend(result.err().map(|message| Fault { line: number + 1, message }));
        if draft.faults.len() == MOST_FAULTS {
            return Err(draft.faults);
        }
    }
    draft.input(title)
}

/// Text without its byte-order mark.
pub fn unmarked(text: &[u8]) -> &[u8] {
    text.strip_prefix(b"\xEF\xBB\xBF").unwrap_or(text)
}

impl Draft {
    /// Takes a line's entry.
    fn entry(&mut self, line: usize, entry: &str) -> Result<(), String> {
        if let Some(other) = entry.chars().find(|&c| !blank(c) && (c.is_whitespace() || c.is_control())) {
            return Err(format!("{}: blanks and tabs part words, and no other such character", other.escape_default()));
        }
        let words: Vec<&str> = entry.split(blank).filter(|word| !word.is_empty()).collect();
        match words[..] {
            [] => Ok(()),
            ["tick", magnitude] => self.tick(line, magnitude),
            ["tick", ..] => Err("a tick line is tick MAGNITUDE, as in tick 2".to_string()),
            ["part", name, kind, ref operands @ ..] => self.part(line, name, kind, operands),
            ["part", ..] => Err("a part line is part NAME KIND OPERANDS, as in part gravity constant a=-1".to_string()),
            ["wire", ref ends @ ..] => self.wire(line, &ends.join(" ")),
            ["want", step] => self.want(line, step, "x1"),
            ["want", step, times] => self.want(line, step, times),
            ["want", ..] => Err("a want line is want STEP or want STEP xTIMES, as in want 8 x5".to_string()),
            ["until", tick, "step", step] => self.until(line, tick, step),
            ["until", ..] => Err("an until line is until TICK step STEP, as in until 6000 step 100".to_string()),
            [word, ..] => Err(format!("{word}: {ENTRIES}")),
        }
    }

    /// Takes the default magnitude.
    fn tick(&mut self, line: usize, magnitude: &str) -> Result<(), String> {
        if let Some((earlier, _)) = self.tick {
            return Err(format!("tick is on line {earlier} already"));
        }
        let magnitude = number(magnitude, &format!("tick {magnitude}"), MAGNITUDES)?;
        self.tick = Some((line, magnitude));
        Ok(())
    }

    /// Takes a part. Its name counts even where something else of its line is a fault, so that its wires are none.
    fn part(&mut self, line: usize, name: &str, kind: &str, operands: &[&str]) -> Result<(), String> {
        well_named(name)?;
        if let Some(&part) = self.numbers.get(name) {
            return Err(format!("part {name}: the name is that of line {} already", self.parts[part].0));
        }
        if self.parts.len() == NAMEABLE {
            return Err(format!(
                "part {name}: no wire can name more than {NAMEABLE} parts, and a table has at most 32"
            ));
        }
        self.numbers.insert(name.to_string(), self.parts.len());
        self.names.push(name.to_string());
        self.parts.push((line, Command::End, Vec::new()));
        let number = kinds::of_word(kind).ok_or_else(|| format!("{kind}: no such kind; {}", kinds_listed()))?;
        let (command, spans) = with_operands(number, operands)?;
        if let Some(part) = self.parts.last_mut() {
            *part = (line, command, spans);
        }
        Ok(())
    }

    /// Takes a wire, of what is after the word. Its names are looked up when all lines are read.
    fn wire(&mut self, line: usize, ends: &str) -> Result<(), String> {
        let form = || "a wire line is wire SOURCE -> NAME.PORT, as in wire gravity -> clapper.0".to_string();
        let (source, receiver) = ends.split_once("->").ok_or_else(form)?;
        let (receiver, port) = receiver.trim().split_once('.').ok_or_else(form)?;
        let source = source.trim();
        if let Some((name, _)) = source.split_once('.') {
            return Err(format!("{source}: a source has no port, as in wire {name} -> {receiver}.{port}"));
        }
        if well_named(source).and(well_named(receiver)).is_err() || port.contains(blank) {
            return Err(form());
        }
        let port = number(port, &format!("port {port} of {receiver}"), "0 or 1")?;
        self.wires.push(Wire { line, source: source.to_string(), receiver: receiver.to_string(), port });
        Ok(())
    }

    /// Takes a wanted step, and how often it is wanted.
    fn want(&mut self, line: usize, step: &str, times: &str) -> Result<(), String> {
        let step = number(step, &format!("want {step}"), TICKS)?;
        let digits =
            times.strip_prefix('x').ok_or_else(|| format!("{times}: how often is x and a number, as in x5"))?;
        let times = within(digits, times, 1..=MOST_TIMES, "x1 to x1000000000")?;
        self.score.push((line, Play::Want { step, times }));
        Ok(())
    }

    /// Takes steps until a tick.
    fn until(&mut self, line: usize, tick: &str, step: &str) -> Result<(), String> {
        self.score.push((line, until(tick, step)?));
        Ok(())
    }

    /// The number of the part with a name.
    fn named(&mut self, line: usize, name: &str) -> Option<u8> {
        let number = self.numbers.get(name).map(|&number| number as u8);
        if number.is_none() {
            self.faults.push(Fault { line, message: format!("{name}: no part has this name") });
        }
        number
    }

    /// The bytes of all that was read: Begin, the parts with their spans, the wires and End. Unless there are faults.
    fn input(mut self, title: &str) -> Result<Input, Vec<Fault>> {
        let (line, magnitude) = self.tick.unwrap_or((0, 0));
        let mut commands = vec![(line, Command::Begin { magnitude })];
        for (line, part, spans) in &self.parts {
            commands.push((*line, *part));
            commands.extend(spans.iter().map(|&ticks| (*line, Command::Span { ticks })));
        }
        for Wire { line, source, receiver, port } in std::mem::take(&mut self.wires) {
            let ends = (self.named(line, &source), self.named(line, &receiver));
            if let (Some(source), Some(receiver)) = ends {
                commands.push((line, Command::Wire { source, receiver, port }));
            }
        }
        commands.push((0, Command::End));
        if !self.faults.is_empty() {
            self.faults.sort_by_key(|fault| fault.line);
            return Err(self.faults);
        }
        let (mut bytes, mut lines) = (Vec::new(), Vec::new());
        for (line, command) in commands {
            lines.push((bytes.len(), line));
            bytes.extend(command.bytes());
        }
        let Draft { names, score, .. } = self;
        Ok(Input { title: title.to_string(), form: Form::Table, bytes, lines, names, score })
    }
}

/// Whether a character parts words.
fn blank(character: char) -> bool {
    matches!(character, ' ' | '\t')
}

/// A number that its field can hold, whether it is in its range or not.
fn number<T: TryFrom<i128>>(text: &str, told: &str, range: &str) -> Result<T, String> {
    let digits = text.strip_prefix(['-', '+']).unwrap_or(text);
    if digits.is_empty() || !digits.bytes().all(|byte| byte.is_ascii_digit()) {
        return Err(format!("{told}: a whole number in base ten is wanted, {range}"));
    }
    let number = text.parse::<i128>().ok().and_then(|number| T::try_from(number).ok());
    number.ok_or_else(|| format!("{told}: out of range, {range}"))
}

/// A number that has to be in its range, since no bytes spell it for the load to judge.
fn within(text: &str, told: &str, range: RangeInclusive<u64>, named: &str) -> Result<u64, String> {
    let number = number(text, told, named)?;
    match range.contains(&number) {
        true => Ok(number),
        false => Err(format!("{told}: out of range, {named}")),
    }
}

/// Steps until a tick.
pub fn until(tick: &str, step: &str) -> Result<Play, String> {
    let tick = within(tick, &format!("until {tick}"), 0..=LAST_TICK, POINTS)?;
    let step = within(step, &format!("step {step}"), 1..=MOST_WANTED, TICKS)?;
    Ok(Play::Until { tick, step })
}

/// Whether a name begins with a letter or `_`, and goes on with letters, digits, `_` and `-`.
fn well_named(name: &str) -> Result<(), String> {
    let begins = |c: char| c.is_alphabetic() || c == '_';
    if !name.starts_with(begins) || !name.chars().all(|c| c.is_alphanumeric() || c == '_' || c == '-') {
        return Err(format!("{name}: a name begins with a letter or _ and goes on with letters, digits, _ and -"));
    }
    match name.chars().nth(LONGEST_NAME) {
        Some(_) => Err(format!("{name}: a name has at most {LONGEST_NAME} characters")),
        None => Ok(()),
    }
}

/// The kinds, for a message.
fn kinds_listed() -> String {
    let words: Vec<&str> = KIND_WORDS.iter().map(|kind| kind.word).collect();
    format!("the kinds are {}", words.join(", "))
}

/// The operands that a kind names, for a message.
fn operands_listed(kind: &KindWords) -> String {
    let mut words = kind.operands.to_vec();
    words.push("pref");
    format!("it has {}", words.join(", "))
}

/// A part's command by its kind and operands, and its spans.
fn with_operands(number: u8, operands: &[&str]) -> Result<(Command, Vec<u32>), String> {
    let kind = &KIND_WORDS[usize::from(number)];
    let mut given: HashMap<&str, &str> = HashMap::new();
    for operand in operands {
        let (word, value) = operand
            .split_once('=')
            .filter(|(word, value)| !word.is_empty() && !value.is_empty())
            .ok_or_else(|| format!("{operand}: an operand is NAME=VALUE without blanks, as in a=-1"))?;
        if !kind.names(word) {
            return Err(format!("{operand}: {} has no operand {word}; {}", kind.word, operands_listed(kind)));
        }
        if given.insert(word, value).is_some() {
            return Err(format!("{operand}: {word} is given twice"));
        }
    }
    if kind.names("p") && !given.contains_key("p") {
        return Err(format!("{} needs its operand p, {TICKS}", kind.word));
    }
    let value =
        |word: &str| given.get(word).map_or(Ok(0), |text| self::number(text, &format!("{word}={text}"), VALUES));
    let p = given.get("p").map_or(Ok(0), |text| self::number(text, &format!("p={text}"), TICKS))?;
    let preference = given.get("pref").map_or(Ok(NO_PREFERENCE), |text| preferred(text))?;
    let spans = given.get("spans").map_or(Ok(Vec::new()), |text| spans(text))?;
    Ok((Command::Part { kind: number, preference, a: value("a")?, b: value("b")?, p }, spans))
}

/// A preference: the byte that says none is no number of one.
fn preferred(text: &str) -> Result<u8, String> {
    let told = format!("pref={text}");
    match number(text, &told, MAGNITUDES)? {
        NO_PREFERENCE => Err(format!("{told}: out of range, {MAGNITUDES}")),
        preference => Ok(preference),
    }
}

/// The spans of a drive, with commas between.
fn spans(text: &str) -> Result<Vec<u32>, String> {
    let told = format!("spans={text}");
    text.split(',').map(|span| number(span, &told, TICKS)).collect()
}
