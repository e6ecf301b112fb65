// The planted sources: small trees with something in them that must be found, or with what looks
// like it and must not be. Their files end in `.rt.txt`, since a file `.rt` would have to be proved,
// and their list of crates is `listed.txt`, since a second `crates.txt` would be refused.
// The file `expect` of each has lines
//   root PATH            a root
//   reached PATH         a function that is reached; where there is one, they must be all
//   finds PATH: WORDS    a finding with these words; of no other names are there findings

use std::collections::BTreeSet;
use std::fs;
use std::path::Path;

use crate::checks::Checks;
use crate::reach::{self, Report};
use crate::source::Source;

#[derive(Default)]
struct Expected {
    roots: Vec<String>,
    reached: BTreeSet<String>,
    finds: Vec<(String, String)>,
}

pub fn run(folder: &Path, checks: &mut Checks) {
    let mut names: Vec<String> = Vec::new();
    if let Ok(entries) = fs::read_dir(folder) {
        let found = entries.flatten().map(|entry| entry.file_name());
        names.extend(found.map(|name| name.to_string_lossy().into_owned()));
    }
    names.sort();
    checks.check(!names.is_empty(), "there are no planted sources");
    for name in names {
        let outcome = try_one(&folder.join(&name));
        let (holds, words) = match &outcome {
            Ok(words) => (true, words),
            Err(words) => (false, words),
        };
        println!("  {name}: {words}  {}", if holds { "ok" } else { "FAILED" });
        checks.check(holds, &format!("planted source {name}"));
    }
}

fn try_one(folder: &Path) -> Result<String, String> {
    let text = fs::read_to_string(folder.join("expect")).map_err(|error| error.to_string())?;
    let expected = read(&text)?;
    let report = reach::analyse(
        &Source::read(folder, "listed.txt", ".rt.txt"),
        &expected.roots,
    );
    compare(&expected, &report)
}

fn read(text: &str) -> Result<Expected, String> {
    let mut expected = Expected::default();
    for line in text.lines() {
        match line.split_once(' ') {
            Some(("root", path)) => expected.roots.push(path.to_string()),
            Some(("reached", path)) => drop(expected.reached.insert(path.to_string())),
            Some(("finds", rest)) => match rest.split_once(": ") {
                Some((path, words)) => expected.finds.push((path.to_string(), words.to_string())),
                None => return Err(format!("expect has a line without words: {line}")),
            },
            _ => return Err(format!("expect has a line that is not known: {line}")),
        }
    }
    if expected.finds.is_empty() && expected.reached.is_empty() {
        return Err("expect says neither what is found nor what is reached".to_string());
    }
    Ok(expected)
}

fn compare(expected: &Expected, report: &Report) -> Result<String, String> {
    let said: Vec<String> = report
        .findings
        .iter()
        .map(|finding| format!("{} {} {}", finding.name, finding.place, finding.words))
        .collect();
    let said = said.join("; ");
    for (name, words) in &expected.finds {
        let there = |found: &reach::Finding| found.name == *name && found.words.contains(words);
        if !report.findings.iter().any(there) {
            return Err(format!("not found: {name}: {words}; found: {said}"));
        }
    }
    for finding in &report.findings {
        if !expected.finds.iter().any(|(name, _)| *name == finding.name) {
            return Err(format!("found too: {}; found: {said}", finding.name));
        }
    }
    let reached: BTreeSet<String> = report
        .functions
        .iter()
        .map(|seen| seen.path.clone())
        .collect();
    if !expected.reached.is_empty() && reached != expected.reached {
        return Err(format!("reached are {reached:?}"));
    }
    Ok(match said.is_empty() {
        true => format!("clean, {} functions", reached.len()),
        false => format!("found {said}"),
    })
}
