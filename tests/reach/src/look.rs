// A look at one function, type or constant: what it refers to, and the arrays in it.

use std::collections::{BTreeMap, BTreeSet};

use crate::names::Space;
use crate::program::{Definition, Home, Placed, Program};
use crate::tree::{Function, Mention, Mentions, Path, Trait};

// Methods of built-in types and of the library's. None makes an array; those over an iterator call
// what implements one.
const BUILT_IN_METHODS: [&str; 41] = [
    "all",
    "any",
    "checked_add",
    "checked_mul",
    "checked_sub",
    "contains",
    "copied",
    "copy_from_slice",
    "count",
    "enumerate",
    "fill",
    "find",
    "first",
    "fold",
    "get",
    "is_empty",
    "is_err",
    "is_none",
    "is_ok",
    "is_some",
    "iter",
    "iter_mut",
    "last",
    "len",
    "map",
    "max",
    "min",
    "next",
    "nth",
    "ok",
    "ok_or",
    "partition_point",
    "position",
    "rev",
    "saturating_sub",
    "sum",
    "take",
    "then",
    "then_some",
    "unwrap_or",
    "zip",
];

// What one item refers to and what was found in it.
#[derive(Default)]
pub struct Look {
    pub references: BTreeMap<Definition, usize>,
    pub names: BTreeSet<String>,
    pub arrays: Vec<(usize, String)>,
    pub faults: Vec<(usize, String)>,
}

fn is_one_of<'a>(path: &Path, mut names: impl Iterator<Item = &'a &'a str>) -> bool {
    path.single()
        .is_some_and(|single| names.any(|name| *name == single))
}

// Looks at an item alone.
pub fn look_at(program: &Program, definition: Definition) -> Look {
    let mut look = Look::default();
    match definition {
        Definition::Function(id) => {
            let placed = &program.functions[id];
            let item = &placed.item;
            let mut home = placed.home.clone();
            home.parameters.extend(item.parameters.clone());
            let mut all = Mentions::new();
            if item.is_method {
                all.push((item.line, Mention::Binding("self".to_string())));
                let names = vec!["Self".to_string()];
                all.push((item.line, Mention::Type(Path { names })));
            }
            for part in [&item.signature, &item.output, &item.body] {
                all.extend(part.iter().cloned());
            }
            look.mentions(program, &home, &all);
            look.questions(program, &home, placed);
        }
        Definition::Type(id) => {
            let placed = &program.types[id];
            let mut home = placed.home.clone();
            home.owner = Some(id);
            home.parameters.extend(placed.item.parameters.clone());
            look.mentions(program, &home, &placed.item.mentions);
        }
        Definition::Constant(id) => {
            let placed = &program.constants[id];
            for (line, mention) in &placed.item.mentions {
                let is_text = match mention {
                    Mention::Text => true,
                    Mention::Type(path) => path.single() == Some("str"),
                    _ => false,
                };
                if is_text {
                    look.arrays.push((*line, "a str constant".to_string()));
                }
            }
            look.mentions(program, &placed.home, &placed.item.mentions);
        }
        _ => {}
    }
    look.add_outputs(program);
    look
}

impl Look {
    fn mentions(&mut self, program: &Program, home: &Home, mentions: &Mentions) {
        let bindings = mentions.iter().filter_map(|(_, mention)| match mention {
            Mention::Binding(name) => Some(name.as_str()),
            _ => None,
        });
        let everywhere: BTreeSet<&str> = bindings.collect();
        let mut bound: Vec<&str> = Vec::new();
        let mut scopes: Vec<usize> = Vec::new();
        for (line, mention) in mentions {
            match mention {
                Mention::Enter => scopes.push(bound.len()),
                Mention::Leave => bound.truncate(scopes.pop().unwrap_or(0)),
                Mention::Binding(name) => {
                    self.binding(program, home, *line, name);
                    bound.push(name);
                }
                // What is called must be a function wherever its name is bound.
                Mention::Call(path) if is_one_of(path, everywhere.iter()) => {
                    let words = format!("{} is called, a local variable", path.text());
                    self.faults.push((*line, words));
                }
                Mention::Value(path) if is_one_of(path, bound.iter()) => {}
                _ => self.mention(program, home, *line, mention),
            }
        }
    }

    // A name in a pattern: it binds nothing where it is a constant's.
    fn binding(&mut self, program: &Program, home: &Home, line: usize, name: &str) {
        let names = vec![name.to_string()];
        let meant = program.resolve(home, &Path { names }, Space::Values);
        if !matches!(meant, Err(_) | Ok(Definition::Function(_))) {
            self.value(line, name, meant);
        }
    }

    fn mention(&mut self, program: &Program, home: &Home, line: usize, mention: &Mention) {
        match mention {
            Mention::Array(words) => self.arrays.push((line, words.to_string())),
            Mention::Refused(words) => self.faults.push((line, words.to_string())),
            Mention::Method(name) => self.method(program, home, line, name),
            Mention::Call(path) => {
                let meant = program.resolve(home, path, Space::Values);
                if matches!(meant, Ok(Definition::Constant(_))) {
                    let words = format!("{} is called, a constant", path.text());
                    self.faults.push((line, words));
                }
                if matches!(meant, Ok(Definition::Conversion)) {
                    self.of_trait(program, home, line, Trait::From);
                }
                self.value(line, path.last(), meant);
            }
            Mention::Value(path) => {
                let meant = program.resolve(home, path, Space::Values);
                self.value(line, path.last(), meant);
            }
            Mention::Braced(path) => {
                let meant = program.resolve(home, path, Space::Types);
                self.type_(line, path, meant, true);
            }
            Mention::Type(path) => {
                let meant = program.resolve(home, path, Space::Types);
                self.type_(line, path, meant, false);
            }
            Mention::For => self.of_trait(program, home, line, Trait::Iterator),
            Mention::Text
            | Mention::Binding(_)
            | Mention::Enter
            | Mention::Leave
            | Mention::Question => {}
        }
    }

    fn refer(&mut self, line: usize, name: &str, definition: Definition) {
        self.references.entry(definition).or_insert(line);
        self.names.insert(name.to_string());
    }

    fn value(&mut self, line: usize, name: &str, meant: Result<Definition, String>) {
        match meant {
            Ok(Definition::Variant(id)) => self.refer(line, name, Definition::Type(id)),
            Ok(
                definition @ (Definition::Function(_)
                | Definition::Constant(_)
                | Definition::Type(_)),
            ) => self.refer(line, name, definition),
            Ok(Definition::Library(_) | Definition::Conversion) => {
                self.names.insert(name.to_string());
            }
            Ok(_) => self.faults.push((line, format!("{name} is no value"))),
            Err(words) => self.faults.push((line, words)),
        }
    }

    // What calls a function of a trait may call that of any implementation that the crate can see.
    fn of_trait(&mut self, program: &Program, home: &Home, line: usize, of_trait: Trait) {
        let crates = program.crates_of(&program.modules[home.module].of_crate);
        for (other, id) in &program.of_traits {
            let placed = &program.functions[*id];
            if *other == of_trait && crates.contains(&program.modules[placed.home.module].of_crate)
            {
                self.refer(line, &placed.item.name, Definition::Function(*id));
            }
        }
    }

    // The operators `?` of a function, whose result must be the library's.
    fn questions(&mut self, program: &Program, home: &Home, placed: &Placed<Function>) {
        let result = placed.item.output.last();
        let is_library = matches!(result, Some((_, Mention::Type(path)))
            if matches!(program.resolve(home, path, Space::Types), Ok(Definition::Library(_))));
        for (line, mention) in &placed.item.body {
            match mention {
                Mention::Question if is_library => self.of_trait(program, home, *line, Trait::From),
                Mention::Question => self.faults.push((*line, "an operator ?".to_string())),
                _ => {}
            }
        }
    }

    fn type_(&mut self, line: usize, path: &Path, meant: Result<Definition, String>, braced: bool) {
        match meant {
            Ok(Definition::Type(id)) => self.refer(line, path.last(), Definition::Type(id)),
            Ok(Definition::Variant(id)) if braced => {
                self.refer(line, path.last(), Definition::Type(id));
            }
            Ok(Definition::Primitive(_) | Definition::Parameter | Definition::Library(_))
                if !braced => {}
            Ok(_) => self
                .faults
                .push((line, format!("{} is no type", path.text()))),
            Err(words) => self.faults.push((line, words)),
        }
    }

    // All methods of the name that a value might have here.
    fn method(&mut self, program: &Program, home: &Home, line: usize, name: &str) {
        let crates = program.crates_of(&program.modules[home.module].of_crate);
        let mut known = BUILT_IN_METHODS.contains(&name);
        if known {
            self.names.insert(name.to_string());
            self.of_trait(program, home, line, Trait::Iterator);
        }
        if name == "into" {
            self.names.insert(name.to_string());
            self.of_trait(program, home, line, Trait::From);
            known = true;
        }
        for ((owner, member), definition) in &program.members {
            let Definition::Function(id) = definition else {
                continue;
            };
            let of_crate = &program.modules[program.types[*owner].home.module].of_crate;
            let is_method = program.functions[*id].item.is_method;
            if member == name && is_method && crates.contains(of_crate) {
                self.refer(line, name, *definition);
                known = true;
            }
        }
        if !known {
            self.faults
                .push((line, format!("no method {name} is known")));
        }
    }

    // What is got from the functions that are called: the types of their results.
    fn add_outputs(&mut self, program: &Program) {
        for (definition, line) in self.references.clone() {
            let Definition::Function(id) = definition else {
                continue;
            };
            let placed = &program.functions[id];
            for (_, mention) in &placed.item.output {
                match mention {
                    Mention::Array(_) => {
                        let words = format!("gets an array from {}", placed.path);
                        self.arrays.push((line, words));
                    }
                    Mention::Type(path) => {
                        let meant = program.resolve(&placed.home, path, Space::Types);
                        if let Ok(Definition::Type(id)) = meant {
                            self.references.entry(Definition::Type(id)).or_insert(line);
                        }
                    }
                    _ => {}
                }
            }
        }
    }
}
