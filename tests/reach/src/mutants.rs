// Mutants of a source that is clean, made in memory: an array or an unknown call is put into each
// function that is reached, and an array into each type and constant; that must be found. An array
// in a function that is not reached must not.

use std::collections::BTreeSet;

use crate::checks::Checks;
use crate::program::Definition;
use crate::reach::{self, Report};
use crate::source::Source;

const ARRAY: &str = " let planted = [0u32; 4];";
const CALL: &str = " planted_call();";

pub fn run(source: &Source, roots: &[String], clean: &Report, checks: &mut Checks) {
    let program = &clean.program;
    let names_after = |file: &str, offset: usize, words: &str| -> BTreeSet<String> {
        let report = reach::analyse(&source.with(file, offset, words), roots);
        report
            .findings
            .into_iter()
            .map(|finding| finding.name)
            .collect()
    };
    let reached: BTreeSet<&str> = clean
        .functions
        .iter()
        .map(|seen| seen.path.as_str())
        .collect();
    let mut counts = [0; 5];
    for placed in &program.functions {
        let (path, file, start) = (&placed.path, &placed.home.file, placed.item.inside.0);
        let only = BTreeSet::from([path.clone()]);
        let found = names_after(file, start, ARRAY);
        if !reached.contains(path.as_str()) {
            checks.check(
                found.is_empty(),
                &format!("an array in {path} is none of a lookup"),
            );
            counts[4] += 1;
            continue;
        }
        checks.check(found == only, &format!("an array in {path} alone is found"));
        let found = names_after(file, start, CALL);
        checks.check(
            found == only,
            &format!("an unknown call in {path} alone is found"),
        );
        counts[0] += 1;
        counts[1] += 1;
    }
    for seen in &clean.types {
        let Definition::Type(id) = seen.definition else {
            continue;
        };
        let placed = &program.types[id];
        if let Some((offset, words)) = placed.item.room {
            let found = names_after(&placed.home.file, offset, words);
            let holds = found.iter().any(|name| reached.contains(name.as_str()));
            checks.check(holds, &format!("an array in type {} is found", seen.path));
            counts[2] += 1;
        }
    }
    for seen in &clean.constants {
        let Definition::Constant(id) = seen.definition else {
            continue;
        };
        let placed = &program.constants[id];
        let found = names_after(&placed.home.file, placed.item.value, " [0u32; 4][0] + ");
        let holds = found.iter().any(|name| reached.contains(name.as_str()));
        checks.check(
            holds,
            &format!("an array in constant {} is found", seen.path),
        );
        counts[3] += 1;
    }
    let [arrays, calls, types, constants, elsewhere] = counts;
    println!("  to be found: {arrays} functions with an array, {calls} with an unknown call,");
    println!("  {types} types and {constants} constants with an array");
    println!("  to be passed over: {elsewhere} functions that are not reached, with an array");
}
