//! The arguments of the command, read once. A word that begins with two dashes is an option, up to `--`, and so is
//! `-h`; any other is a file.
use crate::failure::{Failure, BAD};
use crate::files::{form_of, plain};
use crate::home::Program;
use crate::input::{Form, Play};
use crate::reader::until;
use crate::usage::USAGE;
use std::ffi::OsString;
use std::path::PathBuf;

/// What is to be done with the input.
#[derive(Clone, Copy, Debug, Default, PartialEq, Eq)]
pub enum Act {
    #[default]
    Rehearse,
    Explain,
    Text,
    Save,
}

/// Which outputs are shown: all, those of some parts, or those of three on a sheet. Parts are told by name or number.
#[derive(Clone, Debug, Default, PartialEq, Eq)]
pub enum Choice {
    #[default]
    All,
    Only(Vec<String>),
    Sheet([String; 3]),
}

/// All that the arguments say. Without a file it is standard input; `out` is where a table is saved, and `sheet` the
/// choice of a sheet as it was written.
#[derive(Clone, Debug, PartialEq, Eq)]
pub struct Arguments {
    pub file: Option<PathBuf>,
    pub out: Option<OsString>,
    pub form: Form,
    pub act: Act,
    pub choice: Choice,
    pub sheet: String,
    pub names: bool,
    pub strict: bool,
    pub until: Option<Play>,
}

/// What the caller asks for.
#[derive(Clone, Debug, PartialEq, Eq)]
pub enum Asked {
    Help,
    Version,
    Work(Arguments),
}

/// What was read so far: the options that were given, in their order, and the first two of them that do not go
/// together.
#[derive(Default)]
struct Draft {
    given: Vec<String>,
    files: Vec<OsString>,
    form: Option<Form>,
    act: Act,
    choice: Choice,
    sheet: String,
    names: bool,
    strict: bool,
    tick: Option<String>,
    step: Option<String>,
    clash: Option<String>,
}

/// What some arguments ask for, or what is wrong with them. Help and the version are given whatever comes after them.
pub fn read(given: impl IntoIterator<Item = OsString>) -> Result<Asked, Failure> {
    let mut draft = Draft::default();
    let mut given = given.into_iter();
    while let Some(argument) = given.next() {
        match &*argument.to_string_lossy() {
            "--help" | "-h" => return Ok(Asked::Help),
            "--version" => return Ok(Asked::Version),
            "--" => draft.files.extend(given.by_ref()),
            option if option.starts_with("--") => draft.option(option, || given.next())?,
            _ => draft.files.push(argument),
        }
    }
    draft.arguments().map(Asked::Work)
}

/// Arguments that are none of the usage.
fn misused(why: &str) -> Failure {
    Failure::new(BAD, format!("{}\n{}", plain(why), USAGE.trim_end()))
}

/// Arguments that do not go together, or have a bad value.
fn clashing(why: &str) -> Failure {
    Failure::new(BAD, format!("{why} (./rehearse --help)"))
}

impl Draft {
    /// Takes an option, and the value after it.
    fn option(&mut self, option: &str, next: impl FnOnce() -> Option<OsString>) -> Result<(), Failure> {
        let value = |what: &str| {
            let value = next().map(|value| value.to_string_lossy().into_owned());
            value.ok_or_else(|| misused(&format!("{option}: {what} must follow it")))
        };
        match option {
            "--names" => self.names = true,
            "--strict" => self.strict = true,
            "--hex" => self.formed(Form::Hex),
            "--table" => self.formed(Form::Table),
            "--explain" => self.acting(Act::Explain),
            "--text" => self.acting(Act::Text),
            "--save" if !self.files.is_empty() => return Err(misused("--save comes before FILE and OUT")),
            "--save" => self.acting(Act::Save),
            "--only" => self.chosen(Choice::Only(listed(&value("parts with commas between")?))),
            "--sheet" => {
                self.sheet = value("three parts with commas between")?;
                self.chosen(Choice::Sheet(three(&self.sheet)?));
            }
            "--until" => once(option, &mut self.tick, value("a tick")?, &mut self.clash),
            "--step" => once(option, &mut self.step, value("a wanted step")?, &mut self.clash),
            _ => return Err(misused(&format!("{option}: no such option"))),
        }
        self.given.push(option.to_string());
        Ok(())
    }

    /// Takes the form of the input.
    fn formed(&mut self, form: Form) {
        if self.form.replace(form).is_some_and(|other| other != form) {
            self.clashes("--hex and --table: the input has one form");
        }
    }

    /// Takes what is to be done.
    fn acting(&mut self, act: Act) {
        let other = std::mem::replace(&mut self.act, act);
        if other != act && other != Act::Rehearse {
            self.clashes("--explain, --text and --save: one of them");
        }
    }

    /// Takes the choice of outputs.
    fn chosen(&mut self, choice: Choice) {
        if std::mem::replace(&mut self.choice, choice) != Choice::All {
            self.clashes("--only and --sheet: one of them, once");
        }
    }

    /// Keeps the first clash of options. It is told when all arguments are read: help may come after it.
    fn clashes(&mut self, why: &str) {
        self.clash.get_or_insert_with(|| why.to_string());
    }

    /// The arguments, or what of them does not go together.
    fn arguments(mut self) -> Result<Arguments, Failure> {
        let (file, out) = self.placed()?;
        if let Some(clash) = &self.clash {
            return Err(clashing(clash));
        }
        let until = self.run()?;
        self.together(until.is_some())?;
        let file = file.filter(|file| file != "-").map(PathBuf::from);
        let form = self.form.unwrap_or_else(|| form_of(file.as_deref()));
        let Draft { act, choice, sheet, names, strict, .. } = self;
        Ok(Arguments { file, out, form, act, choice, sheet, names, strict, until })
    }

    /// FILE, and OUT where a table is to be saved.
    fn placed(&mut self) -> Result<(Option<OsString>, Option<OsString>), Failure> {
        let saving = self.given.iter().any(|option| option == "--save");
        let mut files = std::mem::take(&mut self.files).into_iter();
        let (first, second, third) = (files.next(), files.next(), files.next());
        match (saving, first, second, third) {
            (true, ..) if !self.saves_alone() => Err(misused("--save goes with --hex or --table alone")),
            (true, Some(file), Some(out), None) => Ok((Some(file), Some(out))),
            (true, ..) => Err(misused("--save: one FILE and one OUT are wanted")),
            (false, _, Some(second), _) => {
                Err(misused(&format!("{}: a second FILE, and one is read", second.to_string_lossy())))
            }
            (false, file, None, _) => Ok((file, None)),
        }
    }

    /// Whether no option goes with --save, or one that names the form of the input.
    fn saves_alone(&self) -> bool {
        let others: Vec<&str> = self.given.iter().map(String::as_str).filter(|&option| option != "--save").collect();
        matches!(others[..], [] | ["--hex"] | ["--table"]) && self.given.len() == others.len() + 1
    }

    /// The steps that are wanted after the score.
    fn run(&self) -> Result<Option<Play>, Failure> {
        match (&self.tick, &self.step) {
            (Some(tick), Some(step)) => until(tick, step).map(Some).map_err(|wrong| clashing(&format!("--{wrong}"))),
            (None, None) => Ok(None),
            _ => Err(clashing("--until T and --step S go together")),
        }
    }

    /// Whether the options go together.
    fn together(&self, until: bool) -> Result<(), Failure> {
        if self.act != Act::Rehearse && (self.names || self.choice != Choice::All) {
            return Err(clashing("--names, --only and --sheet are for a rehearsal's lines"));
        }
        if self.act == Act::Text && until {
            return Err(clashing("--until is for a rehearsal: a text table has lines until TICK step STEP"));
        }
        Ok(())
    }
}

impl Arguments {
    /// The proved program that does all of it; none where the proved calls are wanted.
    pub fn program(&self) -> Option<Program> {
        let plain = !self.names && !self.strict && self.until.is_none();
        match (self.act, &self.choice) {
            _ if self.form == Form::Table || !plain => None,
            (Act::Save, _) => Some(Program::SaveTable),
            (Act::Rehearse, Choice::All) => Some(Program::Rehearse),
            (Act::Rehearse, Choice::Sheet(_)) => self.numbers().map(|_| Program::PrintSheet),
            _ => None,
        }
    }

    /// The three parts of a sheet, where all are written as numbers in base ten, without leading zeros.
    pub fn numbers(&self) -> Option<[&str; 3]> {
        let number = |word: &str| !word.is_empty() && word.bytes().all(|byte| byte.is_ascii_digit());
        let words: [&str; 3] = self.sheet.split(',').collect::<Vec<_>>().try_into().ok()?;
        words.iter().all(|word| number(word)).then(|| words.map(without_zeros))
    }
}

/// A number without its leading zeros.
fn without_zeros(number: &str) -> &str {
    match number.trim_start_matches('0') {
        "" => "0",
        number => number,
    }
}

/// The words between commas, without blanks around them.
fn listed(words: &str) -> Vec<String> {
    words.split(',').map(|word| word.trim().to_string()).collect()
}

/// The three parts of a sheet. None is left out.
fn three(written: &str) -> Result<[String; 3], Failure> {
    let whole = written.split(',').all(|word| !word.is_empty());
    let parts = whole.then(|| listed(written)).and_then(|parts| parts.try_into().ok());
    let wanted = "three parts with commas between are wanted, as in --sheet 0,1,2";
    parts.ok_or_else(|| Failure::new(BAD, format!("--sheet {}: {wanted}", plain(written))))
}

/// Takes an option's value, and whether it had one.
fn once(option: &str, place: &mut Option<String>, value: String, clash: &mut Option<String>) {
    if place.replace(value).is_some() {
        clash.get_or_insert_with(|| format!("{option} is given twice"));
    }
}
