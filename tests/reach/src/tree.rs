// What the parser makes of a file: its items, and of each item what it mentions. Expressions are
// kept as the flat list of their mentions, in the order of the text.

// A path as it is written, its type arguments apart.
#[derive(Clone, Debug)]
pub struct Path {
    pub names: Vec<String>,
}

impl Path {
    pub fn last(&self) -> &str {
        self.names.last().map_or("", String::as_str)
    }

    // The name of a path that is one name alone.
    pub fn single(&self) -> Option<&str> {
        match &self.names[..] {
            [name] => Some(name),
            _ => None,
        }
    }

    pub fn text(&self) -> String {
        self.names.join("::")
    }
}

#[derive(Clone, Debug)]
pub enum Mention {
    // An array: its type, a literal, or a byte string.
    Array(&'static str),
    // A string.
    Text,
    // A path where a type stands.
    Type(Path),
    // A path where a value stands, also in a pattern.
    Value(Path),
    // A path that is called, or a pattern `path(..)`.
    Call(Path),
    // A struct literal or a pattern `path { .. }`.
    Braced(Path),
    Method(String),
    // A name that a pattern binds, unless it is a constant's. It follows what it is bound to.
    Binding(String),
    // A scope of such names begins or ends.
    Enter,
    Leave,
    // An operator `?`.
    Question,
    // A `for`, which takes what an iterator gives.
    For,
    // What cannot be resolved whatever the names mean.
    Refused(&'static str),
}

// A mention and its line.
pub type Mentions = Vec<(usize, Mention)>;

#[derive(Clone, Debug, Default)]
pub struct Function {
    pub name: String,
    pub line: usize,
    pub parameters: Vec<String>,
    pub is_method: bool,
    pub signature: Mentions,
    pub output: Mentions,
    pub body: Mentions,
    // The offsets behind the body's opening brace and before its closing one.
    pub inside: (usize, usize),
}

// A struct, an enum or a type alias.
#[derive(Clone, Debug, Default)]
pub struct Declared {
    pub kind: &'static str,
    pub name: String,
    pub line: usize,
    pub parameters: Vec<String>,
    pub mentions: Mentions,
    pub variants: Vec<String>,
    // Whether its name is also a value: a tuple struct or a unit struct.
    pub is_value: bool,
    // An alias of a path.
    pub alias: Option<Path>,
    // Where a field or a variant more may be written, and the words of one with an array.
    pub room: Option<(usize, &'static str)>,
}

// A constant or a static.
#[derive(Clone, Debug, Default)]
pub struct Constant {
    pub name: String,
    pub line: usize,
    pub mentions: Mentions,
    // The offset of its value.
    pub value: usize,
}

// The traits of the library's whose implementations are read: what is called by `from`, `into` and
// `?`, and what is called by `for` and by the library's methods over an iterator.
#[derive(Clone, Copy, Debug, PartialEq, Eq)]
pub enum Trait {
    From,
    Iterator,
}

// A name that a `use` brings; `*` for all names.
#[derive(Clone, Debug)]
pub struct Import {
    pub name: String,
    pub path: Path,
    pub line: usize,
}

#[derive(Clone, Debug)]
pub enum Item {
    Function(Function),
    Declared(Declared),
    Constant(Constant),
    // A module, with its items where they stand in the same file.
    Module {
        name: String,
        line: usize,
        items: Option<Vec<Item>>,
    },
    Use(Vec<Import>),
    Implementation {
        target: Path,
        parameters: Vec<String>,
        line: usize,
        items: Vec<Item>,
        of_trait: Option<Trait>,
    },
}
