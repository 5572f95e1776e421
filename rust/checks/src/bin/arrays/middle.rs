//! The middle code of a built library, as the kit keeps it in the file mir.json of the library: one value of JSON, and
//! the types in it.

use crate::failed;

/// A value of JSON. Numbers are kept as they are spelled.
pub enum Node {
    Word(String),
    Text(String),
    List(Vec<Node>),
    Fields(Vec<(String, Node)>),
}

/// Says that the middle code is not as it is read here.
fn other_form(what: &str) -> ! {
    failed(&format!("the middle code has another form: {what}"))
}

impl Node {
    /// A list's values; none of any other node.
    pub fn list(&self) -> &[Node] {
        match self {
            Node::List(nodes) => nodes,
            _ => &[],
        }
    }

    /// A text's characters.
    pub fn text(&self) -> &str {
        match self {
            Node::Text(text) => text,
            _ => other_form("a text is wanted"),
        }
    }

    /// A whole number.
    pub fn number(&self) -> u64 {
        match self {
            Node::Word(word) => word.parse().unwrap_or_else(|_| other_form("a number is wanted")),
            _ => other_form("a number is wanted"),
        }
    }

    /// A field of an object.
    pub fn field(&self, name: &str) -> &Node {
        let Node::Fields(fields) = self else { other_form(&format!("the field {name} is wanted")) };
        let found = fields.iter().find(|(own, _)| own == name);
        found.map_or_else(|| other_form(&format!("there is no field {name}")), |(_, node)| node)
    }

    /// All fields of a name, in any object inside.
    pub fn named(&self, name: &str) -> Vec<&Node> {
        let mut found = Vec::new();
        match self {
            Node::List(nodes) => nodes.iter().for_each(|node| found.extend(node.named(name))),
            Node::Fields(fields) => fields.iter().for_each(|(own, node)| {
                found.extend((own == name).then_some(node));
                found.extend(node.named(name));
            }),
            Node::Word(_) | Node::Text(_) => {}
        }
        found
    }

    /// A case and what it holds: that of an object is its one field. A text holds nothing but itself.
    pub fn case(&self) -> (&str, &Node) {
        match self {
            Node::Text(name) => (name, self),
            Node::Fields(fields) if fields.len() == 1 => (&fields[0].0, &fields[0].1),
            _ => other_form("a case is wanted"),
        }
    }
}

/// What is left to read.
struct Reader<'a> {
    rest: &'a str,
}

impl Reader<'_> {
    /// Whether a sign comes next; then it is taken.
    fn takes(&mut self, sign: char) -> bool {
        self.rest = self.rest.trim_start();
        let Some(rest) = self.rest.strip_prefix(sign) else { return false };
        self.rest = rest;
        true
    }

    /// One value.
    fn value(&mut self) -> Node {
        if self.takes('[') {
            return Node::List(self.items(']', Reader::value));
        }
        if self.takes('{') {
            return Node::Fields(self.items('}', Reader::named));
        }
        if self.takes('"') {
            return Node::Text(self.text());
        }
        let end = self.rest.find(|c: char| c.is_whitespace() || ",]}".contains(c)).unwrap_or(self.rest.len());
        let (word, rest) = self.rest.split_at(end);
        if word.is_empty() {
            other_form("a value is wanted");
        }
        self.rest = rest;
        Node::Word(word.to_string())
    }

    /// A field of an object.
    fn named(&mut self) -> (String, Node) {
        let quoted = self.takes('"');
        let name = self.text();
        if !quoted || !self.takes(':') {
            other_form("a field is wanted");
        }
        (name, self.value())
    }

    /// What is between a bracket and its end.
    fn items<T>(&mut self, end: char, item: fn(&mut Self) -> T) -> Vec<T> {
        let mut items = Vec::new();
        while !self.takes(end) {
            if !items.is_empty() && !self.takes(',') {
                other_form("a comma is wanted");
            }
            items.push(item(self));
        }
        items
    }

    /// The characters of a text, after the quote that begins it. One that is spelled by a stroke stays so.
    fn text(&mut self) -> String {
        let mut text = String::new();
        let mut signs = self.rest.char_indices();
        while let Some((at, sign)) = signs.next() {
            match sign {
                '"' => {
                    self.rest = &self.rest[at + 1..];
                    return text;
                }
                '\\' => text.extend([Some(sign), signs.next().map(|(_, next)| next)].iter().flatten()),
                _ => text.push(sign),
            }
        }
        other_form("a text does not end")
    }
}

/// The value that a file spells.
pub fn parsed(code: &str) -> Node {
    let mut reader = Reader { rest: code };
    let node = reader.value();
    if !reader.rest.trim().is_empty() {
        other_form("there is more than one value");
    }
    node
}

/// A type, or a length, which stands where a type can: the parameters of generic code are both.
#[derive(Clone, Debug, PartialEq, Eq, PartialOrd, Ord)]
pub enum Type {
    Number(u64),
    Bool,
    Unit,
    Pointer,
    /// A record with what is given for its parameters. A tuple is one, and so is what a closure captures.
    Named(String, Vec<Type>),
    Reference(Box<Type>),
    Slice(Box<Type>),
    Array(Box<Type>, Box<Type>),
    Length(u64),
    /// A parameter of the function, or of the record, that has the type.
    Parameter(u64),
    /// Any type or length: what is given for a parameter is not known.
    Any,
}

impl Type {
    /// The type with what is given for its parameters.
    pub fn put(&self, given: &[Type]) -> Type {
        let inner = |of: &Type| Box::new(of.put(given));
        match self {
            Type::Parameter(number) => given.get(*number as usize).unwrap_or(self).clone(),
            Type::Named(name, own) => Type::Named(name.clone(), own.iter().map(|of| of.put(given)).collect()),
            Type::Reference(target) => Type::Reference(inner(target)),
            Type::Slice(element) => Type::Slice(inner(element)),
            Type::Array(element, length) => Type::Array(inner(element), inner(length)),
            _ => self.clone(),
        }
    }

    /// How deep types are in it.
    pub fn depth(&self) -> usize {
        match self {
            Type::Named(_, given) => 1 + given.iter().map(Type::depth).max().unwrap_or(0),
            Type::Reference(inner) | Type::Slice(inner) | Type::Array(inner, _) => 1 + inner.depth(),
            _ => 0,
        }
    }
}

/// The type that a node spells.
pub fn type_of(node: &Node) -> Type {
    let (name, holds) = node.case();
    let words = holds.list();
    match (name, words.len()) {
        ("Bool", _) => Type::Bool,
        ("Unit", _) => Type::Unit,
        ("Ptr", _) => Type::Pointer,
        ("Int" | "Float", _) => Type::Number(holds.number()),
        ("Param", _) => Type::Parameter(holds.number()),
        ("Const" | "Lit", _) => Type::Length(holds.number()),
        ("Named", 2) => Type::Named(words[0].field("name").text().to_string(), types_of(&words[1])),
        ("Ref", 3) => Type::Reference(Box::new(type_of(&words[2]))),
        ("Array", 2) => Type::Array(Box::new(type_of(&words[0])), Box::new(type_of(&words[1]))),
        ("Struct", 2) if words[0].text() == "&[]" => match words[1].list().first().map(type_of) {
            Some(Type::Reference(element)) => Type::Slice(element),
            _ => other_form("a slice"),
        },
        _ => other_form(&format!("a type {name}")),
    }
}

/// The types that a list of nodes spells.
pub fn types_of(list: &Node) -> Vec<Type> {
    list.list().iter().map(type_of).collect()
}

/// Types with commas between them.
fn listed(types: &[Type]) -> String {
    types.iter().map(Type::to_string).collect::<Vec<_>>().join(", ")
}

impl std::fmt::Display for Type {
    fn fmt(&self, to: &mut std::fmt::Formatter) -> std::fmt::Result {
        match self {
            Type::Number(bits) => write!(to, "u{bits}"),
            Type::Bool => write!(to, "bool"),
            Type::Unit => write!(to, "()"),
            Type::Pointer => write!(to, "pointer"),
            Type::Named(name, given) if given.is_empty() => write!(to, "{name}"),
            Type::Named(name, given) if name.starts_with("(,") => write!(to, "({})", listed(given)),
            Type::Named(name, given) => match name.as_str() {
                "core::option::Option" => write!(to, "Option<{}>", listed(given)),
                "core::result::Result" => write!(to, "Result<{}>", listed(given)),
                _ => write!(to, "{name}<{}>", listed(given)),
            },
            Type::Reference(target) => write!(to, "&{target}"),
            Type::Slice(element) => write!(to, "&[{element}]"),
            Type::Array(element, length) => write!(to, "[{element}; {length}]"),
            Type::Length(number) => write!(to, "{number}"),
            Type::Parameter(number) => write!(to, "P{number}"),
            Type::Any => write!(to, "_"),
        }
    }
}
