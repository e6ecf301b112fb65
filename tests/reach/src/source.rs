// The source of the crates that crates.txt lists: its texts, read from a folder.

use std::collections::BTreeMap;
use std::fs;
use std::path::Path;

use crate::lex::Fault;

// A crate that is listed, and the crates that it may name.
#[derive(Clone)]
pub struct Listed {
    pub name: String,
    pub dependencies: Vec<String>,
}

#[derive(Clone)]
pub struct Source {
    pub crates: Vec<Listed>,
    // The texts by their paths from the folder on, `crates/NAME/src/..`.
    pub texts: BTreeMap<String, String>,
    pub faults: Vec<Fault>,
}

impl Source {
    // Reads the list of crates, `crates.txt`, and the files with an ending, `.rt`, or others where they are no part of the product.
    pub fn read(folder: &Path, list: &str, ending: &str) -> Source {
        let mut source = Source {
            crates: Vec::new(),
            texts: BTreeMap::new(),
            faults: Vec::new(),
        };
        match fs::read_to_string(folder.join(list)) {
            Ok(text) => source.list(list, &text),
            Err(error) => source.fault(list, 0, format!("cannot be read: {error}")),
        }
        if source.crates.is_empty() {
            source.fault(list, 0, "lists no crate".to_string());
        }
        for listed in source.crates.clone() {
            source.read_folder(folder, &format!("crates/{}/src", listed.name), ending);
        }
        source
    }

    fn fault(&mut self, file: &str, line: usize, words: String) {
        let file = file.to_string();
        self.faults.push(Fault { file, line, words });
    }

    // Reads the lines `NAME: DEP DEP ..`, of a static library `NAME staticlib: DEP DEP ..`.
    fn list(&mut self, list: &str, text: &str) {
        for (number, line) in (1..).zip(text.lines()) {
            let line = line.split('#').next().unwrap_or_default().trim();
            if line.is_empty() {
                continue;
            }
            let Some((name, dependencies)) = line.split_once(':') else {
                self.fault(list, number, "no line of a crate".to_string());
                continue;
            };
            let name = name.trim();
            let name = name.strip_suffix(" staticlib").unwrap_or(name).to_string();
            if name.contains(char::is_whitespace) {
                self.fault(list, number, "no line of a crate".to_string());
                continue;
            }
            if self.crates.iter().any(|listed| listed.name == name) {
                self.fault(list, number, format!("crate {name} stands twice"));
                continue;
            }
            let dependencies = dependencies.split_whitespace().map(String::from).collect();
            self.crates.push(Listed { name, dependencies });
        }
    }

    fn read_folder(&mut self, folder: &Path, inside: &str, ending: &str) {
        let entries = match fs::read_dir(folder.join(inside)) {
            Ok(entries) => entries,
            Err(error) => return self.fault(inside, 0, format!("cannot be read: {error}")),
        };
        for entry in entries {
            let Ok(entry) = entry else {
                self.fault(inside, 0, "has an entry that cannot be read".to_string());
                continue;
            };
            let path = format!("{inside}/{}", entry.file_name().to_string_lossy());
            if entry.path().is_dir() {
                self.read_folder(folder, &path, ending);
            } else if let Some(stem) = path.strip_suffix(ending) {
                let file = format!("{stem}.rt");
                match fs::read_to_string(entry.path()) {
                    Ok(text) => drop(self.texts.insert(file, text)),
                    Err(error) => self.fault(&file, 0, format!("cannot be read: {error}")),
                }
            }
        }
    }

    // The same source with words put in at an offset of a file.
    pub fn with(&self, file: &str, offset: usize, words: &str) -> Source {
        let mut source = self.clone();
        if let Some(text) = source.texts.get_mut(file) {
            text.insert_str(offset, words);
        }
        source
    }
}
