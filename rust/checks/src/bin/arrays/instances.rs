//! What is given for the parameters of generic functions. A function that names another gives types and lengths for its
//! parameters, and so does one that hands on an impl for the parameters of the impl's methods. They may have parameters
//! of the first one in them, for which others gave something. Where nothing is known, it is any type.

use crate::code::{is_bodiless, Function};
use crate::failed;
use crate::middle::Type;
use std::collections::{BTreeMap, BTreeSet};

/// How deep the types are that are given at most: a function that calls itself with a type around its own has no last
/// one.
const DEEPEST: usize = 32;

/// What is given for the parameters of each function, and what is still to be looked at.
struct Found<'a> {
    functions: &'a BTreeMap<String, Function>,
    methods: BTreeMap<&'a str, Vec<&'a str>>,
    given: BTreeMap<String, BTreeSet<Vec<Type>>>,
    open: Vec<(&'a str, Vec<Type>)>,
}

impl<'a> Found<'a> {
    /// Something is given for a function's parameters. For those that are a method's own, after those of its impl, it
    /// is any type.
    fn give(&mut self, name: &'a str, mut given: Vec<Type>) {
        if given.iter().any(|of| of.depth() > DEEPEST) {
            failed(&format!("{name} is given types without end"));
        }
        given.resize(self.functions[name].parameters, Type::Any);
        if self.given.entry(name.to_string()).or_default().insert(given.clone()) {
            self.open.push((name, given));
        }
    }

    /// Looks at what each function gives to those that it names.
    fn follow(&mut self) {
        while let Some((name, given)) = self.open.pop() {
            let functions = self.functions;
            let function = &functions[name];
            let put = |types: &[Type]| types.iter().map(|of| of.put(&given)).collect::<Vec<_>>();
            for (called, types) in &function.calls {
                if let Some((called, _)) = functions.get_key_value(called) {
                    self.give(called, put(types));
                }
            }
            for (handed, types) in &function.impls {
                for method in self.methods.get(handed.as_str()).cloned().unwrap_or_default() {
                    self.give(method, put(types));
                }
            }
        }
    }
}

/// The names of all functions that another one names, or whose impl another one hands on.
fn named_by_others<'a>(functions: &'a BTreeMap<String, Function>) -> BTreeSet<&'a str> {
    let mut named = BTreeSet::new();
    for (name, function) in functions {
        let others = function.calls.iter().chain(&function.impls).map(|(other, _)| other.as_str());
        named.extend(others.filter(|other| other != name));
    }
    let of_impl = |function: &Function| function.method_of.as_deref().is_some_and(|of| named.contains(of));
    let methods: Vec<&'a str> =
        functions.iter().filter(|(_, function)| of_impl(function)).map(|(name, _)| name.as_str()).collect();
    named.extend(methods);
    named
}

/// What is given for the parameters of each function, in each way in which it is given. A function without parameters
/// has one way, and so has one without a body, whose parameters stay. Where nobody gives anything, it is any type.
pub fn instances(functions: &BTreeMap<String, Function>) -> BTreeMap<String, BTreeSet<Vec<Type>>> {
    let mut methods: BTreeMap<&str, Vec<&str>> = BTreeMap::new();
    for (name, function) in functions.iter().filter(|(name, _)| !is_bodiless(name)) {
        if let Some(of) = &function.method_of {
            methods.entry(of).or_default().push(name);
        }
    }
    let mut found = Found { functions, methods, given: BTreeMap::new(), open: Vec::new() };
    for (name, function) in functions {
        if function.parameters == 0 {
            found.give(name, Vec::new());
        } else if is_bodiless(name) {
            found.given.insert(name.clone(), BTreeSet::from([Vec::new()]));
        }
    }
    found.follow();
    // Those that nobody names come first: what they give is all that the others are given.
    let named = named_by_others(functions);
    for is_named in [false, true] {
        for name in functions.keys() {
            if named.contains(name.as_str()) == is_named && !found.given.contains_key(name) {
                found.give(name, Vec::new());
                found.follow();
            }
        }
    }
    found.given
}
