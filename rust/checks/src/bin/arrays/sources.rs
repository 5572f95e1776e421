//! The functions of the sources beside those of the middle code, by their names. A function that the middle code does
//! not have is not searched.
//!
//! The middle code names a function by its module, the type or impl that has it, and its own name. An impl's name is
//! made of others: that of `impl Field for Kind` is `KindField`, and that of `impl From<Kind> for u8` is `U8FromKind`.
//! So the module and the own name are compared. A type's own methods are of the type's module, wherever their impl is.
//! In addition the middle code has what the checker makes of the sources:
//!
//! - the methods of a derive, in an impl that has the name of the type and then that of the trait,
//! - in each impl that leaves a method to its trait, that method, which calls the trait's; and the trait's a second
//!   time, without its body,
//! - a closure, `MODULE::fn::FUNCTION::CLOSURE`, and the type of what it captures, with `+Self` after that,
//! - what calls a closure, or a function that is handed on like one, and what drops a value: with `+` in the name.

use crate::code::{read, Code};
use crate::declared::words_of;
use crate::failed;
use std::collections::{BTreeMap, BTreeSet};

/// Traits whose derive has methods in the middle code.
const WITH_METHODS: [&str; 4] = ["Debug", "Ord", "PartialEq", "PartialOrd"];

/// What the sources have: each function's module and name with how often it is there, and each derive's impl.
#[derive(Default)]
struct Sources {
    modules: BTreeSet<String>,
    functions: BTreeMap<(String, String), usize>,
    derives: BTreeMap<String, bool>,
}

/// The module of a source: `crates/NAME/src/a/b.rt` is `NAME::a::b`, and the root of a crate is `NAME`.
fn module_of(file: &str) -> String {
    let found = file.strip_suffix(".rt").and_then(|path| path.rsplit_once("crates/")).map(|(_, path)| path);
    let Some((of_crate, path)) = found.and_then(|path| path.split_once("/src/")) else {
        failed(&format!("{file} is no crates/NAME/src/FILE.rt"))
    };
    match path {
        "lib" | "main" => of_crate.to_string(),
        _ => format!("{of_crate}::{}", path.replace('/', "::")),
    }
}

/// The traits that a derive names, whose words begin here: `derive(Clone, Debug)`.
fn derived(words: &[String]) -> impl Iterator<Item = &String> {
    words[2..].iter().take_while(|word| *word != ")").filter(|word| *word != ",")
}

/// The name of the type that is declared first after these words.
fn type_after(words: &[String]) -> &str {
    let at = words.iter().position(|word| word == "struct" || word == "enum");
    at.and_then(|at| words.get(at + 1)).map_or_else(|| failed("a derive without a type"), String::as_str)
}

/// The module that a source of this module takes a type from, `use crate::a::b::Type;`, or its own.
fn module_of_type(words: &[String], module: &str, name: &str) -> String {
    let of_crate = module.split("::").next().unwrap();
    let taken = words.split(|word| word == ";").find_map(|statement| {
        let at = statement.iter().position(|word| word == "use")?;
        let path: String = statement[at + 1..].concat();
        path.strip_prefix("crate::")?.strip_suffix(&format!("::{name}")).map(str::to_string)
    });
    taken.map_or_else(|| module.to_string(), |path| format!("{of_crate}::{path}"))
}

/// Where the block that begins at a place ends.
fn block_end(words: &[String], begin: usize) -> usize {
    let mut depth = 0;
    for (at, word) in words.iter().enumerate().skip(begin) {
        match word.as_str() {
            "{" => depth += 1,
            "}" if depth == 1 => return at,
            "}" => depth -= 1,
            _ => (),
        }
    }
    words.len()
}

/// The type whose own methods the impl has that begins here, `impl Type {` or `impl<'a> Type<'a> {`, and where its
/// block begins. The impl of a trait is none.
fn own_impl(words: &[String], at: usize) -> Option<(&str, usize)> {
    let begin = at + words[at..].iter().position(|word| word == "{")?;
    let head = &words[at + 1..begin];
    let mut depth = 0;
    let mut outside = head.iter().filter(|word| {
        match word.as_str() {
            "<" => depth += 1,
            ">" => depth -= 1,
            _ => return depth == 0,
        }
        false
    });
    let name = outside.next()?;
    (!head.iter().any(|word| word == "for")).then_some((name.as_str(), begin))
}

impl Sources {
    /// Takes a source's functions and derives.
    fn take(&mut self, file: &str) {
        let source = std::fs::read_to_string(file).unwrap_or_else(|_| failed(&format!("{file} cannot be read")));
        let words = words_of(&source);
        let module = module_of(file);
        // The module of a type's own methods, up to the end of their impl.
        let (mut of_type, mut end) = (module.clone(), 0);
        for at in 0..words.len().saturating_sub(2) {
            let is_name = words[at + 1].starts_with(|c: char| c.is_alphabetic() || c == '_');
            match words[at].as_str() {
                "impl" => {
                    if let Some((name, begin)) = own_impl(&words, at) {
                        (of_type, end) = (module_of_type(&words, &module, name), block_end(&words, begin));
                    }
                }
                "fn" if is_name => {
                    let of = if at < end { &of_type } else { &module };
                    *self.functions.entry((of.clone(), words[at + 1].clone())).or_default() += 1;
                }
                "mod" if words[at + 2] == "{" => failed(&format!("{file} has a module inside")),
                "derive" if words[at + 1] == "(" => {
                    for of in derived(&words[at..]) {
                        let name = format!("{module}::{}{of}", type_after(&words[at..]));
                        self.derives.insert(name, WITH_METHODS.contains(&of.as_str()));
                    }
                }
                _ => (),
            }
        }
        self.modules.insert(module);
    }

    /// The module of a function of the middle code, and its own name.
    fn split<'a>(&self, name: &'a str) -> (&'a str, &'a str) {
        let (mut module, own) = name.rsplit_once("::").unwrap_or_else(|| failed(&format!("a function {name}")));
        while !self.modules.contains(module) {
            let Some((above, _)) = module.rsplit_once("::") else { failed(&format!("{name} is of no source")) };
            module = above;
        }
        (module, own)
    }
}

/// Whether a part of a function's name says that it is a closure, or that the checker made it.
fn is_made(name: &str) -> bool {
    name.contains("::fn::") || name.contains('+')
}

/// Whether a function of an impl is its trait's: it does nothing but call that.
fn is_inherited(code: &Code, name: &str) -> bool {
    let function = &code.functions[name];
    let own = name.rsplit("::").next();
    let alone = function.places.iter().all(|(kind, _)| *kind == "result" || *kind == "parameter");
    match function.calls.as_slice() {
        [(called, _)] => function.method_of.is_some() && alone && called.rsplit("::").next() == own && called != name,
        _ => false,
    }
}

/// The name in the sources of a function of the middle code that is one of theirs.
fn written<'a>(code: &Code, name: &'a str) -> Option<&'a str> {
    match name.strip_suffix("+decl") {
        Some(declared) => (!code.functions.contains_key(declared)).then_some(declared),
        None => (!is_made(name) && !is_inherited(code, name)).then_some(name),
    }
}

/// The closures whose types are in the middle code, without whose body they cannot be searched; a line for each.
fn unseen_closures(code: &Code) -> Vec<String> {
    let closures = code.records.keys().filter_map(|name| name.strip_suffix("+Self"));
    let unseen = closures.filter(|name| code.crate_of(name).is_some() && !code.functions.contains_key(*name));
    unseen.map(|name| format!("the closure {name} is not in the middle code")).collect()
}

/// What the sources have and the middle code has not, and the reverse; a line for each.
pub fn compare_sources(files: &[String]) -> Vec<String> {
    let (middle, sources): (Vec<String>, Vec<String>) = files.iter().cloned().partition(|file| file.ends_with(".mir"));
    let code = read(&middle);
    let mut known = Sources::default();
    sources.iter().for_each(|file| known.take(file));
    let mut seen: BTreeMap<(String, String), usize> = BTreeMap::new();
    let mut with_methods = BTreeSet::new();
    let mut made = 0;
    for name in code.functions.keys().filter(|name| code.crate_of(name).is_some()) {
        let of_derive = code.functions[name].method_of.as_ref().filter(|of| known.derives.contains_key(*of));
        match (of_derive, written(&code, name)) {
            (Some(of), _) => drop(with_methods.insert(of.clone())),
            (None, Some(written)) => {
                let (module, own) = known.split(written);
                *seen.entry((module.to_string(), own.to_string())).or_default() += 1;
            }
            (None, None) => made += 1,
        }
    }
    let mut found = unseen_closures(&code);
    for of in known.derives.iter().filter(|(of, has_methods)| **has_methods && !with_methods.contains(*of)) {
        found.push(format!("the derive {} is not in the middle code", of.0));
    }
    for (module, name) in known.functions.keys().chain(seen.keys()).collect::<BTreeSet<_>>() {
        let key = (module.clone(), name.clone());
        let times = |in_these: &BTreeMap<_, usize>| in_these.get(&key).copied().unwrap_or(0);
        let (written, had) = (times(&known.functions), times(&seen));
        if written != had {
            found.push(format!("{module} has {written} functions {name} in the sources, and {had} in the middle code"));
        }
    }
    if found.is_empty() {
        let written: usize = seen.values().sum();
        println!("{written} functions of the sources, {} derives and {made} made from them", with_methods.len());
    }
    found
}
