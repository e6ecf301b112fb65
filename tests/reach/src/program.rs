// The program that a source makes: the modules of each crate, and the functions, types and
// constants in them.

use std::cell::RefCell;
use std::collections::{BTreeMap, BTreeSet};

use crate::items;
use crate::lex::Fault;
use crate::source::Source;
use crate::tree::{Constant, Declared, Function, Import, Item, Path, Trait};

#[derive(Clone, Copy, Debug, PartialEq, Eq, PartialOrd, Ord)]
pub enum Definition {
    Module(usize),
    Function(usize),
    Type(usize),
    Constant(usize),
    // A variant of an enum.
    Variant(usize),
    Primitive(&'static str),
    // A type of the library, or a variant of one: `Option` and `Result`.
    Library(&'static str),
    // A function `from` of a built-in type: the library's, or any that the crates declare.
    Conversion,
    // A type parameter.
    Parameter,
}

pub struct Module {
    pub path: String,
    pub of_crate: String,
    pub parent: Option<usize>,
    pub entries: Vec<(String, Definition)>,
    pub imports: Vec<Import>,
}

// Where an item stands: its module, its file and, in an implementation, the type and its
// parameters.
#[derive(Clone)]
pub struct Home {
    pub module: usize,
    pub file: String,
    pub owner: Option<usize>,
    pub parameters: Vec<String>,
}

// An item, its whole path and where it stands.
pub struct Placed<T> {
    pub item: T,
    pub path: String,
    pub line: usize,
    pub home: Home,
}

impl<T> Placed<T> {
    // Its path, its file and its line.
    pub fn described(&self) -> (String, String, usize) {
        (self.path.clone(), self.home.file.clone(), self.line)
    }
}

// Adds an item to a list; gives its number there.
fn keep<T>(
    list: &mut Vec<Placed<T>>,
    item: T,
    before: &str,
    name: &str,
    line: usize,
    home: &Home,
) -> usize {
    list.push(Placed {
        item,
        path: format!("{before}::{name}"),
        line,
        home: home.clone(),
    });
    list.len() - 1
}

struct Implementation {
    target: Path,
    line: usize,
    items: Vec<Item>,
    home: Home,
    of_trait: Option<Trait>,
}

#[derive(Default)]
pub struct Program {
    pub modules: Vec<Module>,
    pub functions: Vec<Placed<Function>>,
    pub types: Vec<Placed<Declared>>,
    pub constants: Vec<Placed<Constant>>,
    // The module of each crate that has a source.
    pub roots: BTreeMap<String, usize>,
    pub dependencies: BTreeMap<String, Vec<String>>,
    // What stands in implementations, by type and name.
    pub members: BTreeMap<(usize, String), Definition>,
    // The functions of the implementations of traits.
    pub of_traits: Vec<(Trait, usize)>,
    pub faults: Vec<Fault>,
    implementations: Vec<Implementation>,
    // The imports that are being resolved, as types or as values: none stands for itself.
    pub active: RefCell<Vec<(usize, usize, bool)>>,
}

impl Program {
    pub fn new(source: &Source) -> Program {
        let mut program = Program {
            faults: source.faults.clone(),
            ..Program::default()
        };
        let mut files = BTreeMap::new();
        for (file, text) in &source.texts {
            match items::parse(file, text) {
                Ok(items) => drop(files.insert(file.clone(), items)),
                Err(fault) => {
                    program.faults.push(fault);
                    files.insert(file.clone(), Vec::new());
                }
            }
        }
        for listed in &source.crates {
            let name = &listed.name;
            let folder = format!("crates/{name}/src");
            let files_of_root = ["lib", "main"].map(|root| format!("{folder}/{root}.rt"));
            let Some(file) = files_of_root.iter().find(|file| files.contains_key(*file)) else {
                program.fault(&folder, 0, "has no lib.rt that can be read".to_string());
                continue;
            };
            let dependencies = listed.dependencies.clone();
            program.dependencies.insert(name.clone(), dependencies);
            let items = files.remove(file).unwrap_or_default();
            let module = program.module(name.clone(), name, None);
            program.roots.insert(name.clone(), module);
            program.fill(module, file, &folder, items, &mut files);
        }
        for file in files.keys() {
            program.fault(file, 0, "no mod line leads to this file".to_string());
        }
        for implementation in std::mem::take(&mut program.implementations) {
            program.implement(implementation);
        }
        program
    }

    fn fault(&mut self, file: &str, line: usize, words: String) {
        let file = file.to_string();
        self.faults.push(Fault { file, line, words });
    }

    fn module(&mut self, path: String, of_crate: &str, parent: Option<usize>) -> usize {
        self.modules.push(Module {
            path,
            of_crate: of_crate.to_string(),
            parent,
            entries: Vec::new(),
            imports: Vec::new(),
        });
        self.modules.len() - 1
    }

    // Fills a module with its items. The files of its modules stand in the folder.
    fn fill(
        &mut self,
        module: usize,
        file: &str,
        folder: &str,
        items: Vec<Item>,
        files: &mut BTreeMap<String, Vec<Item>>,
    ) {
        let home = Home {
            module,
            file: file.to_string(),
            owner: None,
            parameters: Vec::new(),
        };
        for item in items {
            match item {
                Item::Use(imports) => {
                    for import in imports.iter().filter(|import| import.name == "*") {
                        self.fault(file, import.line, "a glob import".to_string());
                    }
                    self.modules[module].imports.extend(imports);
                }
                Item::Implementation {
                    target,
                    parameters,
                    line,
                    items,
                    of_trait,
                } => {
                    let mut home = home.clone();
                    home.parameters = parameters;
                    self.implementations.push(Implementation {
                        target,
                        line,
                        items,
                        home,
                        of_trait,
                    });
                }
                Item::Module { name, line, items } => {
                    let path = format!("{}::{name}", self.modules[module].path);
                    let of_crate = self.modules[module].of_crate.clone();
                    let inner = self.module(path, &of_crate, Some(module));
                    self.enter(module, file, line, &name, Definition::Module(inner));
                    let inner_folder = format!("{folder}/{name}");
                    if let Some(items) = items {
                        self.fill(inner, file, &inner_folder, items, files);
                        continue;
                    }
                    let choices = [
                        format!("{inner_folder}.rt"),
                        format!("{inner_folder}/mod.rt"),
                    ];
                    let there: Vec<&String> = choices
                        .iter()
                        .filter(|file| files.contains_key(*file))
                        .collect();
                    let [inner_file] = there[..] else {
                        let words = format!("module {name} has no file, or two");
                        self.fault(file, line, words);
                        continue;
                    };
                    let items = files.remove(inner_file).unwrap_or_default();
                    self.fill(inner, inner_file, &inner_folder, items, files);
                }
                other => self.place(other, &home),
            }
        }
    }

    // Places a function, a type or a constant, in a module or in an implementation.
    fn place(&mut self, item: Item, home: &Home) {
        let before = match home.owner {
            Some(owner) => self.types[owner].path.clone(),
            None => self.modules[home.module].path.clone(),
        };
        let (name, line, definition) = match item {
            Item::Function(item) => {
                let (name, line) = (item.name.clone(), item.line);
                let id = keep(&mut self.functions, item, &before, &name, line, home);
                (name, line, Definition::Function(id))
            }
            Item::Declared(item) => {
                let (name, line) = (item.name.clone(), item.line);
                let id = keep(&mut self.types, item, &before, &name, line, home);
                (name, line, Definition::Type(id))
            }
            Item::Constant(item) => {
                let (name, line) = (item.name.clone(), item.line);
                let id = keep(&mut self.constants, item, &before, &name, line, home);
                (name, line, Definition::Constant(id))
            }
            _ => return,
        };
        match home.owner {
            None => self.enter(home.module, &home.file, line, &name, definition),
            Some(owner) => {
                if self
                    .members
                    .insert((owner, name.clone()), definition)
                    .is_some()
                {
                    self.fault(&home.file, line, format!("{name} stands twice"));
                }
            }
        }
    }

    fn enter(&mut self, to: usize, file: &str, line: usize, name: &str, definition: Definition) {
        self.modules[to]
            .entries
            .push((name.to_string(), definition));
        if name == "_" {
            self.fault(file, line, "an item without a name".to_string());
        }
    }

    fn implement(&mut self, implementation: Implementation) {
        let Implementation {
            target,
            line,
            items,
            mut home,
            of_trait,
        } = implementation;
        if let Some(of_trait) = of_trait {
            return self.implement_trait(of_trait, &target, items, home);
        }
        match self.type_of(&home, &target) {
            Ok(owner) => {
                home.owner = Some(owner);
                for item in items {
                    self.place(item, &home);
                }
            }
            Err(words) => self.fault(&home.file, line, words),
        }
    }

    // Keeps the functions of a trait's implementation. They are no names of a module, nor members:
    // whatever calls one may call any of the trait's.
    fn implement_trait(
        &mut self,
        of_trait: Trait,
        target: &Path,
        items: Vec<Item>,
        mut home: Home,
    ) {
        let before = format!("{}::{}", self.modules[home.module].path, target.text());
        home.owner = self.type_of(&home, target).ok();
        for item in items {
            if let Item::Function(item) = item {
                let (name, line) = (item.name.clone(), item.line);
                let id = keep(&mut self.functions, item, &before, &name, line, &home);
                self.of_traits.push((of_trait, id));
            }
        }
    }

    // The crates that a crate reaches through the list, itself with them.
    pub fn crates_of(&self, name: &str) -> BTreeSet<String> {
        let mut reached = BTreeSet::new();
        let mut ahead = vec![name.to_string()];
        while let Some(name) = ahead.pop() {
            if reached.insert(name.clone()) {
                ahead.extend(self.dependencies.get(&name).into_iter().flatten().cloned());
            }
        }
        reached
    }
}
