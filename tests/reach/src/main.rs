// Shows that a lookup makes no array: works out from the source which functions the lookups reach
// and looks at each of them. Planted sources and mutants show that it finds what it should.
// Usage: reach [DIR], the folder with crates.txt. The last line is 'N passed, M failed'.

mod blocks;
mod checks;
mod crude;
mod expressions;
mod items;
mod lex;
mod look;
mod mutants;
mod names;
mod parse;
mod patterns;
mod planted;
mod program;
mod reach;
mod source;
mod tree;

use std::collections::BTreeSet;
use std::fs;
use std::path::{Path, PathBuf};
use std::process::ExitCode;

use checks::Checks;
use program::Definition;
use reach::{Report, Seen};
use source::Source;

fn main() -> ExitCode {
    let own = Path::new(env!("CARGO_MANIFEST_DIR"));
    let folder = match std::env::args_os().nth(1) {
        Some(argument) => PathBuf::from(argument),
        None => own.join("../.."),
    };
    let mut checks = Checks::default();
    println!("planted sources:");
    planted::run(&own.join("planted"), &mut checks);
    println!();
    let source = Source::read(&folder, "crates.txt", ".rt");
    let text = fs::read_to_string(own.join("roots.txt")).unwrap_or_default();
    let roots: Vec<String> = text.lines().map(String::from).collect();
    let report = reach::analyse(&source, &roots);
    show("functions", &report.functions, &report, &mut checks);
    show("types", &report.types, &report, &mut checks);
    show("constants", &report.constants, &report, &mut checks);
    println!("findings: {}", report.findings.len());
    for finding in &report.findings {
        println!("  {}  {}: {}", finding.name, finding.place, finding.words);
    }
    checks.check(
        report.findings.is_empty(),
        "a lookup reaches an array, or cannot be followed",
    );
    checks.check(!report.functions.is_empty(), "the roots reach no function");
    look_again(&source, &report, &mut checks);
    println!();
    println!("mutants:");
    if report.findings.is_empty() {
        mutants::run(&source, &roots, &report, &mut checks);
    } else {
        checks.check(false, "mutants are made of a clean source alone");
    }
    println!("{} passed, {} failed", checks.passed, checks.failed);
    match checks.failed == 0 && checks.passed > 0 {
        true => ExitCode::SUCCESS,
        false => ExitCode::FAILURE,
    }
}

// Prints the items that were looked at, and counts each.
fn show(kind: &str, seen: &[Seen], report: &Report, checks: &mut Checks) {
    println!("{kind} looked at: {}", seen.len());
    let found: BTreeSet<&str> = report
        .findings
        .iter()
        .map(|found| found.name.as_str())
        .collect();
    for item in seen {
        println!("  {}  {}", item.path, item.place);
        checks.check(!found.contains(item.path.as_str()), &item.path);
    }
    println!();
}

// Holds what each function calls by its tokens against what was resolved.
fn look_again(source: &Source, report: &Report, checks: &mut Checks) {
    for seen in &report.functions {
        let Definition::Function(id) = seen.definition else {
            continue;
        };
        let placed = &report.program.functions[id];
        let text = source
            .texts
            .get(&placed.home.file)
            .map_or("", String::as_str);
        let (start, end) = placed.item.inside;
        let missed = crude::missed(text, &text[start..end], &seen.names);
        checks.check(
            missed.is_empty(),
            &format!("{} calls {missed:?} too", seen.path),
        );
    }
}
