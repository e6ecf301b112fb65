// What is reached from the roots: functions, types and constants, and what is found in them.

use std::collections::{BTreeMap, BTreeSet};

use crate::look::{look_at, Look};
use crate::names::Space;
use crate::program::{Definition, Home, Program};
use crate::source::Source;
use crate::tree::Path;

pub struct Finding {
    // The function, or the file where it is of none.
    pub name: String,
    pub place: String,
    pub words: String,
}

// An item that was looked at.
pub struct Seen {
    pub path: String,
    pub place: String,
    pub definition: Definition,
    // The names of what it refers to.
    pub names: BTreeSet<String>,
}

pub struct Report {
    pub program: Program,
    pub functions: Vec<Seen>,
    pub types: Vec<Seen>,
    pub constants: Vec<Seen>,
    pub findings: Vec<Finding>,
}

// Looks at all that the roots reach.
pub fn analyse(source: &Source, roots: &[String]) -> Report {
    let program = Program::new(source);
    let mut findings: Vec<Finding> = program
        .faults
        .iter()
        .map(|fault| Finding {
            name: fault.file.clone(),
            place: format!("{}:{}", fault.file, fault.line),
            words: fault.words.clone(),
        })
        .collect();
    let mut ahead = Vec::new();
    if roots.is_empty() {
        findings.push(fault_of_root("roots", "there are no roots".to_string()));
    }
    for root in roots {
        match root_function(&program, root) {
            Ok(definition) => ahead.push(definition),
            Err(words) => findings.push(fault_of_root(root, words)),
        }
    }
    let mut looks: BTreeMap<Definition, Look> = BTreeMap::new();
    while let Some(definition) = ahead.pop() {
        if looks.contains_key(&definition) {
            continue;
        }
        let look = look_at(&program, definition);
        ahead.extend(look.references.keys());
        looks.insert(definition, look);
    }
    let mut report = Report {
        program,
        functions: Vec::new(),
        types: Vec::new(),
        constants: Vec::new(),
        findings,
    };
    for (definition, look) in &looks {
        report.add(*definition, look, &looks);
    }
    for seen in [
        &mut report.functions,
        &mut report.types,
        &mut report.constants,
    ] {
        seen.sort_by(|one, other| one.path.cmp(&other.path));
    }
    report
}

fn fault_of_root(root: &str, words: String) -> Finding {
    Finding {
        name: root.to_string(),
        place: "root".to_string(),
        words,
    }
}

fn root_function(program: &Program, root: &str) -> Result<Definition, String> {
    let mut names = root.split("::").map(String::from);
    let name = names.next().unwrap_or_default();
    let module = *program.roots.get(&name).ok_or("its crate is missing")?;
    let names = std::iter::once("self".to_string()).chain(names).collect();
    let home = Home {
        module,
        file: String::new(),
        owner: None,
        parameters: Vec::new(),
    };
    match program.resolve(&home, &Path { names }, Space::Values)? {
        Definition::Function(id) => Ok(Definition::Function(id)),
        _ => Err("is no function".to_string()),
    }
}

impl Report {
    fn add(&mut self, definition: Definition, look: &Look, looks: &BTreeMap<Definition, Look>) {
        let (path, file, line) = described(&self.program, definition);
        let mut say = |line: usize, words: String| {
            self.findings.push(Finding {
                name: path.clone(),
                place: format!("{file}:{line}"),
                words,
            })
        };
        for (line, words) in &look.faults {
            say(*line, words.clone());
        }
        let is_function = matches!(definition, Definition::Function(_));
        if is_function {
            for (line, words) in &look.arrays {
                say(*line, words.clone());
            }
            for (reference, line) in &look.references {
                if let Some(why) = holds_array(&self.program, *reference, looks) {
                    let (path, _, _) = described(&self.program, *reference);
                    say(*line, format!("names {path}, which holds an array: {why}"));
                }
            }
        }
        let seen = Seen {
            place: format!("{file}:{line}"),
            path,
            definition,
            names: look.names.clone(),
        };
        match definition {
            Definition::Function(_) => self.functions.push(seen),
            Definition::Type(_) => self.types.push(seen),
            _ => self.constants.push(seen),
        }
    }
}

// The path, the file and the line of an item.
fn described(program: &Program, definition: Definition) -> (String, String, usize) {
    match definition {
        Definition::Function(id) => program.functions[id].described(),
        Definition::Type(id) => program.types[id].described(),
        Definition::Constant(id) => program.constants[id].described(),
        _ => (String::new(), String::new(), 0),
    }
}

// Where a type or a constant holds an array, through all that it refers to.
fn holds_array(
    program: &Program,
    from: Definition,
    looks: &BTreeMap<Definition, Look>,
) -> Option<String> {
    let mut passed = BTreeSet::new();
    let mut ahead = vec![from];
    while let Some(definition) = ahead.pop() {
        if matches!(definition, Definition::Function(_)) || !passed.insert(definition) {
            continue;
        }
        let look = looks.get(&definition)?;
        if let Some((line, words)) = look.arrays.first() {
            let (path, file, _) = described(program, definition);
            return Some(format!("{words} in {path}, {file}:{line}"));
        }
        ahead.extend(look.references.keys());
    }
    None
}
