// A second, cruder look at what a function calls, by its tokens alone: each name before an opening
// bracket must be among what the analysis resolved. It knows neither grammar nor modules.

use std::collections::{BTreeMap, BTreeSet};

use crate::lex::{self, Token};

const WORDS_BEFORE_BRACKETS: [&str; 8] = [
    "if", "while", "match", "return", "in", "else", "let", "break",
];

fn tokens(text: &str) -> Vec<Token> {
    let mut tokens = Vec::new();
    let mut place = lex::START;
    while let Ok(lexed) = lex::next(text, place, false) {
        if lexed.token == Token::End {
            break;
        }
        tokens.push(lexed.token);
        place = lexed.end;
    }
    tokens
}

// The names that a file's text gives others by `as`, in lines and groups of `use`.
fn renamed(text: &str) -> BTreeMap<String, String> {
    let mut tokens: Vec<Token> = Vec::new();
    let mut in_use = false;
    for line in text.lines() {
        in_use = in_use || line.trim_start().starts_with("use ");
        if in_use {
            tokens.extend(self::tokens(line));
        }
        in_use = in_use && !line.contains(';');
    }
    let mut names = BTreeMap::new();
    for three in tokens.windows(3) {
        if let [Token::Name(from), Token::Name(word), Token::Name(to)] = three {
            if word == "as" {
                names.insert(to.clone(), from.clone());
            }
        }
    }
    names
}

// The names that a body calls and that are not among those resolved.
pub fn missed(file: &str, body: &str, resolved: &BTreeSet<String>) -> Vec<String> {
    let renamed = renamed(file);
    let mut missed = Vec::new();
    for two in tokens(body).windows(2) {
        let [Token::Name(name), Token::Symbol("(")] = two else {
            continue;
        };
        let name = renamed.get(name).unwrap_or(name);
        if !resolved.contains(name) && !WORDS_BEFORE_BRACKETS.contains(&name.as_str()) {
            missed.push(name.clone());
        }
    }
    missed
}
