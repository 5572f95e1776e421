//! What the files of middle code hold: for each function its places, each with what it is and its type, and what it
//! calls; and for each record its fields, or those of each of its cases. And the search for arrays of signals in them.

use crate::failed;
use crate::instances::instances;
use crate::middle::{parsed, type_of, types_of, Node, Type};
use std::collections::{BTreeMap, BTreeSet};

const SIGNAL: &str = "machine::signal::Signal";
const PART: &str = "machine::part::Part";

/// How deep a record's fields are looked into: a record that refers to its own sort has no last one.
const DEEPEST: usize = 64;

#[derive(PartialEq)]
pub struct Function {
    /// How many type parameters and lengths the function has, with those of its impl.
    pub parameters: usize,
    /// The impl or the trait that has the function among its methods.
    pub method_of: Option<String>,
    pub places: Vec<(&'static str, Type)>,
    /// Each function that it names, or each impl, with what it gives for the parameters.
    pub calls: Vec<(String, Vec<Type>)>,
    pub impls: Vec<(String, Vec<Type>)>,
}

#[derive(Default)]
pub struct Code {
    pub crates: BTreeSet<String>,
    pub functions: BTreeMap<String, Function>,
    pub records: BTreeMap<String, Vec<Vec<Type>>>,
    /// For each function what is given for its parameters, in each way in which it is given.
    pub instances: BTreeMap<String, BTreeSet<Vec<Type>>>,
}

/// Whether a function is declared in a trait without a body.
pub fn is_bodiless(function: &str) -> bool {
    function.ends_with("+decl")
}

/// A function's result, parameters and locals, and the constants that it has references to, each with its type.
fn places(function: &Node) -> Vec<(&'static str, Type)> {
    let parameters = function.field("params").number() as usize;
    let kind = |number: usize| match number {
        0 => "result",
        _ if number <= parameters => "parameter",
        _ => "local",
    };
    let locals = function.field("locals").list();
    if locals.len() <= parameters {
        failed("the middle code has another form: the places of a function");
    }
    let held = locals.iter().enumerate().map(|(number, local)| (kind(number), type_of(local.field("ty"))));
    let lent = function.field("body").named("LendStatic").into_iter().map(|words| match words.list() {
        [_, of, _] => ("constant", type_of(of)),
        _ => failed("the middle code has another form: a constant"),
    });
    held.chain(lent).collect()
}

/// A function's places and what it names.
fn function(node: &Node) -> Function {
    let generics = node.field("generics");
    let body = node.field("body");
    let method_of = match generics.field("method_of") {
        Node::Word(_) => None,
        of => of.case().1.list().first().map(|name| name.text().to_string()),
    };
    let calls = body.named("Fn").into_iter().map(|words| match words.list() {
        [name, given] => (name.text().to_string(), types_of(given.field("types"))),
        _ => failed("the middle code has another form: the name of a function"),
    });
    let impls = body.named("Impl").into_iter().map(|words| match words.list() {
        [name, given, _] => (name.text().to_string(), types_of(given)),
        _ => failed("the middle code has another form: the name of an impl"),
    });
    Function {
        parameters: generics.field("types").list().len(),
        method_of,
        places: places(node),
        calls: calls.collect(),
        impls: impls.collect(),
    }
}

/// The fields of a record's forms.
fn record(shape: &Node) -> Vec<Vec<Type>> {
    match shape.case() {
        ("Fields", list) => vec![types_of(list)],
        ("Variants", lists) => lists.list().iter().map(types_of).collect(),
        (other, _) => failed(&format!("the middle code has another form: a record of {other}")),
    }
}

/// The functions and records of all files.
pub fn read(files: &[String]) -> Code {
    let mut code = Code::default();
    for file in files {
        let text = std::fs::read_to_string(file).unwrap_or_else(|_| failed(&format!("{file} cannot be read")));
        let name = file.rsplit('/').next().unwrap().trim_end_matches(".mir");
        code.crates.insert(name.to_string());
        code.take_functions(&parsed(&text));
    }
    if code.functions.is_empty() {
        failed("the files have no function");
    }
    code.instances = instances(&code.functions);
    code
}

impl Code {
    /// Takes a file's functions, each with the records that it uses. A crate of laws alone has none.
    fn take_functions(&mut self, root: &Node) {
        for pair in root.list() {
            let [name, node] = pair.list() else { failed("the middle code has another form: a function") };
            self.take_function(name.text(), function(node));
            for of in node.field("types").list() {
                self.take_record(of.field("name").text(), record(of.field("shape")));
            }
        }
    }

    /// Takes a function, which another file may have too.
    fn take_function(&mut self, name: &str, function: Function) {
        let before = self.functions.insert(name.to_string(), function);
        if before.is_some_and(|other| other != self.functions[name]) {
            failed(&format!("two functions {name}: the files are of different sources"));
        }
    }

    /// Takes a record, which another file may have too.
    fn take_record(&mut self, name: &str, fields: Vec<Vec<Type>>) {
        let before = self.records.insert(name.to_string(), fields);
        if before.is_some_and(|other| other != self.records[name]) {
            failed(&format!("two records {name}"));
        }
    }

    /// The fields of a record's forms, with what is given for its parameters.
    pub fn fields(&self, name: &str, given: &[Type]) -> Vec<Vec<Type>> {
        let forms = self.records.get(name);
        let forms = forms.unwrap_or_else(|| failed(&format!("no record {name} in the middle code")));
        forms.iter().map(|form| form.iter().map(|field| field.put(given)).collect()).collect()
    }

    /// A function's places, with what is given for its parameters: in each way in which it is given. Those of a
    /// function without a body have its own parameters.
    pub fn places<'a>(&'a self, name: &'a str) -> impl Iterator<Item = (&'static str, Type)> + 'a {
        let ways = self.instances[name].iter();
        let put =
            |given: &'a Vec<Type>| self.functions[name].places.iter().map(move |(kind, of)| (*kind, of.put(given)));
        ways.flat_map(put)
    }

    /// Whether a type has a signal in it, by value or after a reference. Any type may have one.
    pub fn signals(&self, of: &Type) -> bool {
        self.signals_within(of, DEEPEST)
    }

    /// The same, so many fields deep.
    fn signals_within(&self, of: &Type, deep: usize) -> bool {
        match of {
            Type::Named(name, _) if name == SIGNAL => true,
            Type::Named(name, given) if deep > 0 => {
                self.fields(name, given).iter().flatten().any(|field| self.signals_within(field, deep - 1))
            }
            Type::Reference(inner) | Type::Slice(inner) | Type::Array(inner, _) => self.signals_within(inner, deep),
            Type::Any => true,
            _ => false,
        }
    }

    /// The first array or slice of signals in a type. Records without parameters are looked at by themselves.
    pub fn spare(&self, of: &Type) -> Option<Type> {
        self.spare_within(of, DEEPEST)
    }

    /// The same, so many fields deep.
    fn spare_within(&self, of: &Type, deep: usize) -> Option<Type> {
        match of {
            Type::Array(inner, _) if matches!(&**inner, Type::Named(name, _) if name == PART) => None,
            Type::Array(inner, _) | Type::Slice(inner) if self.signals(inner) => Some(of.clone()),
            Type::Array(inner, _) | Type::Slice(inner) | Type::Reference(inner) => self.spare_within(inner, deep),
            Type::Named(name, given) if !given.is_empty() && deep > 0 => {
                self.fields(name, given).iter().flatten().find_map(|field| self.spare_within(field, deep - 1))
            }
            _ => None,
        }
    }

    /// Size and alignment in bytes: fields in their order, and a byte before those of a case. Of any type they are not
    /// known.
    fn layout(&self, of: &Type) -> Option<(u64, u64)> {
        match of {
            Type::Number(bits) => Some((bits / 8, bits / 8)),
            Type::Bool => Some((1, 1)),
            Type::Unit => Some((0, 1)),
            Type::Pointer | Type::Reference(_) => Some((8, 8)),
            Type::Slice(_) => Some((16, 8)),
            Type::Array(element, length) => match (self.layout(element)?, &**length) {
                ((size, align), Type::Length(number)) => Some((size * number, align)),
                _ => None,
            },
            Type::Named(name, given) => self.layout_of_forms(&self.fields(name, given)),
            Type::Length(_) | Type::Parameter(_) | Type::Any => None,
        }
    }

    /// The layout of a record with these forms.
    fn layout_of_forms(&self, forms: &[Vec<Type>]) -> Option<(u64, u64)> {
        let (mut size, mut align) = (0, 1);
        for form in forms {
            let mut end = u64::from(forms.len() > 1);
            for field in form {
                let (bytes, unit) = self.layout(field)?;
                end = end.div_ceil(unit) * unit + bytes;
                align = align.max(unit);
            }
            size = size.max(end);
        }
        Some((size.div_ceil(align) * align, align))
    }

    /// The bytes of a type, where they are known.
    pub fn bytes(&self, of: &Type) -> Option<u64> {
        self.layout(of).map(|(size, _)| size)
    }

    /// Whether a type holds an array by value.
    pub fn has_array(&self, of: &Type) -> bool {
        match of {
            Type::Array(..) => true,
            Type::Named(name, given) => self.fields(name, given).iter().flatten().any(|field| self.has_array(field)),
            _ => false,
        }
    }

    /// The crate of a function, where it is one of these.
    pub fn crate_of<'a>(&self, function: &'a str) -> Option<&'a str> {
        function.split("::").next().filter(|name| self.crates.contains(*name))
    }

    /// The names of the functions of the crates that have a body.
    pub fn own(&self) -> impl Iterator<Item = &String> {
        self.functions.keys().filter(|name| self.crate_of(name).is_some() && !is_bodiless(name))
    }

    /// The arrays that functions of the crates hold by value, each with its function; those of a record are the
    /// record's.
    pub fn arrays(&self) -> BTreeSet<(Type, String)> {
        let held = |function: &String| {
            let arrays = self.places(function).filter(|(_, of)| matches!(of, Type::Array(..)));
            arrays.map(|(_, of)| (of, function.clone())).collect::<Vec<_>>()
        };
        self.own().flat_map(held).collect()
    }

    /// The records with arrays, each with the crates whose functions hold it by value.
    pub fn holders(&self) -> BTreeMap<Type, BTreeSet<String>> {
        let mut found: BTreeMap<Type, BTreeSet<String>> = BTreeMap::new();
        for function in self.own() {
            let of_crate = self.crate_of(function).unwrap_or_default();
            for (_, of) in self.places(function) {
                if matches!(of, Type::Named(..)) && self.has_array(&of) {
                    found.entry(of).or_default().insert(of_crate.to_string());
                }
            }
        }
        found
    }

    /// What a function gives for the parameters of those that it names.
    fn given<'a>(&'a self, name: &'a str) -> impl Iterator<Item = Type> + 'a {
        let function = &self.functions[name];
        let types = function.calls.iter().chain(&function.impls).flat_map(|(_, types)| types);
        types.flat_map(move |of| self.instances[name].iter().map(move |given| of.put(given)))
    }
}

/// The places of a function that hold an array of signals; a line for each.
fn spare_places(code: &Code, name: &str) -> BTreeSet<String> {
    let places = code.places(name).filter_map(|(kind, of)| Some(format!("{name}: a {kind} has {}", code.spare(&of)?)));
    let given = code.given(name).filter_map(|of| Some(format!("{name}: a call is given {}", code.spare(&of)?)));
    places.chain(given).collect()
}

/// The places that hold an array of signals; a line for each.
pub fn search_signals(files: &[String]) -> Vec<String> {
    let code = read(files);
    // A search for a type that is no more there would find nothing.
    if !code.fields(PART, &[]).iter().flatten().any(|field| code.signals(field)) || !code.records.contains_key(SIGNAL) {
        failed(&format!("{PART} holds no {SIGNAL}: the search looks for another type"));
    }
    let mut found: Vec<String> = code.functions.keys().flat_map(|name| spare_places(&code, name)).collect();
    for (name, cases) in &code.records {
        for field in cases.iter().flatten() {
            if let Some(spare) = code.spare(field) {
                found.push(format!("record {name}: a field has {spare}"));
            }
        }
    }
    if found.is_empty() {
        println!("{} functions and {} records", code.own().count(), code.records.len());
    }
    found
}
