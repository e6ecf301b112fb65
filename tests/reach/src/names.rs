// The resolution of names: what a path means where it stands.

use crate::program::{Definition, Home, Program};
use crate::tree::Path;

// Types and modules have names apart from those of values.
#[derive(Clone, Copy, PartialEq, Eq)]
pub enum Space {
    Types,
    Values,
}

const PRIMITIVES: [&str; 17] = [
    "u8", "u16", "u32", "u64", "u128", "usize", "i8", "i16", "i32", "i64", "i128", "isize", "f32",
    "f64", "bool", "char", "str",
];

// Types of the library, and their variants, which need no `use`.
const LIBRARY_TYPES: [&str; 2] = ["Option", "Result"];
const LIBRARY_VARIANTS: [&str; 4] = ["Some", "None", "Ok", "Err"];

fn known(names: &[&'static str], name: &str) -> Option<&'static str> {
    names.iter().copied().find(|known| *known == name)
}

impl Program {
    // What a path means. The error says why it means nothing.
    pub fn resolve(&self, home: &Home, path: &Path, space: Space) -> Result<Definition, String> {
        let said = |words: String| format!("{} cannot be resolved: {words}", path.text());
        let mut here = self.first(home, path, space).map_err(said)?;
        let mut rest = path.names[1..].iter().peekable();
        while let Some(name) = rest.next() {
            let space = if rest.peek().is_none() {
                space
            } else {
                Space::Types
            };
            here = self.inside(here, name, space).map_err(said)?;
        }
        Ok(here)
    }

    // The type that a path means, aliases followed.
    pub fn type_of(&self, home: &Home, path: &Path) -> Result<usize, String> {
        match self.resolve(home, path, Space::Types)? {
            Definition::Type(id) => self.unaliased(id, 0),
            _ => Err(format!("{} is no type that is declared", path.text())),
        }
    }

    fn unaliased(&self, id: usize, depth: usize) -> Result<usize, String> {
        let placed = &self.types[id];
        if placed.item.kind != "type" {
            return Ok(id);
        }
        let (Some(path), true) = (&placed.item.alias, depth < 16) else {
            return Err(format!("{} is an alias of no named type", placed.path));
        };
        match self.resolve(&placed.home, path, Space::Types)? {
            Definition::Type(id) => self.unaliased(id, depth + 1),
            _ => Err(format!("{} is an alias of no declared type", placed.path)),
        }
    }

    fn first(&self, home: &Home, path: &Path, space: Space) -> Result<Definition, String> {
        let name = path.names[0].as_str();
        let space = if path.names.len() == 1 {
            space
        } else {
            Space::Types
        };
        let of_crate = &self.modules[home.module].of_crate;
        match name {
            "crate" => return Ok(Definition::Module(self.roots[of_crate])),
            "self" if path.names.len() > 1 => return Ok(Definition::Module(home.module)),
            "super" => {
                let parent = self.modules[home.module].parent;
                return parent
                    .map(Definition::Module)
                    .ok_or("no module above".to_string());
            }
            "Self" => {
                return home
                    .owner
                    .map(Definition::Type)
                    .ok_or("no type here".to_string())
            }
            _ => {}
        }
        if space == Space::Types && home.parameters.iter().any(|parameter| parameter == name) {
            return Ok(Definition::Parameter);
        }
        let mut found = self.in_module(home.module, name, space)?;
        if space == Space::Types {
            found.extend(self.named_crate(of_crate, name)?);
        }
        match (self.only(found, name)?, space) {
            (Some(definition), _) => Ok(definition),
            (None, Space::Types) => known(&PRIMITIVES, name)
                .map(Definition::Primitive)
                .or(known(&LIBRARY_TYPES, name).map(Definition::Library))
                .ok_or(format!("{name} is not known")),
            (None, Space::Values) => known(&LIBRARY_VARIANTS, name)
                .map(Definition::Library)
                .ok_or(format!("{name} is not known")),
        }
    }

    fn named_crate(&self, of_crate: &str, name: &str) -> Result<Option<Definition>, String> {
        let dependencies = &self.dependencies[of_crate];
        if !dependencies.iter().any(|dependency| dependency == name) {
            return Ok(None);
        }
        match self.roots.get(name) {
            Some(root) => Ok(Some(Definition::Module(*root))),
            None => Err(format!("crate {name} has no source here")),
        }
    }

    fn only(&self, mut found: Vec<Definition>, name: &str) -> Result<Option<Definition>, String> {
        found.sort();
        found.dedup();
        match found[..] {
            [] => Ok(None),
            [definition] => Ok(Some(definition)),
            _ => Err(format!("{name} stands for more than one thing")),
        }
    }

    // What a module has under a name, its own and what it brings by `use`.
    fn in_module(&self, id: usize, name: &str, space: Space) -> Result<Vec<Definition>, String> {
        let module = &self.modules[id];
        let own = module.entries.iter().filter(|(entry, definition)| {
            entry == name
                && match definition {
                    Definition::Module(_) => space == Space::Types,
                    Definition::Type(id) => space == Space::Types || self.types[*id].item.is_value,
                    _ => space == Space::Values,
                }
        });
        let own: Vec<Definition> = own.map(|(_, definition)| *definition).collect();
        if own.len() > 1 {
            return Err(format!("{name} stands twice in {}", module.path));
        }
        let mut found = own;
        let home = Home {
            module: id,
            file: String::new(),
            owner: None,
            parameters: Vec::new(),
        };
        for (number, import) in module.imports.iter().enumerate() {
            let active = (id, number, space == Space::Types);
            if import.name != name || self.active.borrow().contains(&active) {
                continue;
            }
            self.active.borrow_mut().push(active);
            let meant = self.resolve(&home, &import.path, space);
            let other = match space {
                Space::Types => Space::Values,
                Space::Values => Space::Types,
            };
            let elsewhere = meant.is_err() && self.resolve(&home, &import.path, other).is_ok();
            self.active.borrow_mut().pop();
            match meant {
                Ok(definition) => found.push(definition),
                Err(_) if elsewhere => {}
                Err(words) => return Err(words),
            }
        }
        Ok(found)
    }

    // What a module or a type has under a name.
    fn inside(&self, of: Definition, name: &str, space: Space) -> Result<Definition, String> {
        match of {
            Definition::Module(id) if name == "super" => {
                let parent = self.modules[id].parent;
                parent
                    .map(Definition::Module)
                    .ok_or("no module above".to_string())
            }
            Definition::Module(id) => self
                .only(self.in_module(id, name, space)?, name)?
                .ok_or(format!("{} has no {name}", self.modules[id].path)),
            Definition::Type(id) => {
                let id = self.unaliased(id, 0)?;
                let placed = &self.types[id];
                let is_variant = placed.item.variants.iter().any(|variant| variant == name);
                match (self.members.get(&(id, name.to_string())), is_variant) {
                    (Some(_), true) => Err(format!("{name} stands for more than one thing")),
                    (None, true) => Ok(Definition::Variant(id)),
                    (Some(member), false) if space == Space::Values => Ok(*member),
                    _ => Err(format!("{} has no {name}", placed.path)),
                }
            }
            Definition::Primitive(_) if name == "from" => Ok(Definition::Conversion),
            Definition::Primitive(primitive) => Err(format!(
                "{name} of the built-in type {primitive} is not known"
            )),
            _ => Err(format!("nothing stands behind the name before {name}")),
        }
    }
}
