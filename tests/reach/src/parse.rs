// The parser's common parts: tokens, paths and types. Patterns, expressions, blocks and items have
// files of their own. What is not known is refused.

use crate::lex::{self, Fault, Lexed, Place, Refusal, Token};
use crate::tree::{Mention, Mentions, Path};

pub type Outcome<T> = Result<T, Fault>;

// Words that are no names; those that a path may begin with stand in `PATH_WORDS`.
const KEYWORDS: [&str; 47] = [
    "as", "async", "await", "break", "const", "continue", "dyn", "else", "enum", "extern", "false",
    "fn", "for", "if", "impl", "in", "let", "loop", "match", "mod", "move", "mut", "pub", "ref",
    "return", "static", "struct", "trait", "true", "type", "unsafe", "use", "where", "while",
    "abstract", "become", "box", "do", "final", "macro", "override", "priv", "try", "typeof",
    "unsized", "virtual", "yield",
];

const PATH_WORDS: [&str; 4] = ["crate", "self", "super", "Self"];

pub fn is_name(word: &str) -> bool {
    !KEYWORDS.contains(&word) && !PATH_WORDS.contains(&word) && word != "_"
}

pub struct Parser<'a> {
    pub file: &'a str,
    pub text: &'a str,
    pub now: Lexed,
    // What the item that is being read mentions.
    pub mentions: Mentions,
}

impl<'a> Parser<'a> {
    pub fn new(file: &'a str, text: &'a str) -> Outcome<Parser<'a>> {
        let now = Lexed {
            token: Token::End,
            start: lex::START,
            end: lex::START,
        };
        let mentions = Vec::new();
        let mut parser = Parser {
            file,
            text,
            now,
            mentions,
        };
        parser.jump(lex::START)?;
        Ok(parser)
    }

    pub fn fault<T>(&self, words: String) -> Outcome<T> {
        self.fault_at(self.line(), words)
    }

    fn fault_at<T>(&self, line: usize, words: String) -> Outcome<T> {
        let file = self.file.to_string();
        Err(Fault { file, line, words })
    }

    pub fn unknown<T>(&self, expected: &str) -> Outcome<T> {
        self.fault(format!(
            "syntax that is not known: {:?} where {expected} is expected",
            self.now.token
        ))
    }

    pub fn line(&self) -> usize {
        self.now.start.line
    }

    pub fn mention(&mut self, line: usize, mention: Mention) {
        self.mentions.push((line, mention));
    }

    // Takes the mentions that were made since the last call.
    pub fn mentioned(&mut self) -> Mentions {
        std::mem::take(&mut self.mentions)
    }

    fn lexed(&self, from: Place, behind_dot: bool) -> Outcome<Lexed> {
        lex::next(self.text, from, behind_dot).or_else(|(line, words)| self.fault_at(line, words))
    }

    // Goes on at a place of the text.
    pub fn jump(&mut self, to: Place) -> Outcome<()> {
        self.now = self.lexed(to, false)?;
        Ok(())
    }

    pub fn advance(&mut self) -> Outcome<()> {
        self.now = self.lexed(self.now.end, self.now.token == Token::Symbol("."))?;
        Ok(())
    }

    // Goes on behind text of the other language, which begins behind the current token.
    pub fn pass(&mut self, how: fn(&str, Place) -> Result<Place, Refusal>) -> Outcome<()> {
        match how(self.text, self.now.end) {
            Ok(place) => self.jump(place),
            Err((line, words)) => self.fault_at(line, words),
        }
    }

    pub fn ahead(&self) -> Outcome<Token> {
        Ok(self
            .lexed(self.now.end, self.now.token == Token::Symbol("."))?
            .token)
    }

    pub fn at(&self, symbol: &str) -> bool {
        matches!(self.now.token, Token::Symbol(s) if s == symbol)
    }

    pub fn at_word(&self, word: &str) -> bool {
        matches!(&self.now.token, Token::Name(name) if name == word)
    }

    pub fn take(&mut self, symbol: &str) -> Outcome<bool> {
        let there = self.at(symbol);
        if there {
            self.advance()?;
        }
        Ok(there)
    }

    pub fn take_word(&mut self, word: &str) -> Outcome<bool> {
        let there = self.at_word(word);
        if there {
            self.advance()?;
        }
        Ok(there)
    }

    pub fn expect(&mut self, symbol: &str) -> Outcome<()> {
        match self.take(symbol)? {
            true => Ok(()),
            false => self.unknown(&format!("{symbol:?}")),
        }
    }

    pub fn name(&mut self) -> Outcome<String> {
        match &self.now.token {
            Token::Name(name) if is_name(name) => {
                let name = name.clone();
                self.advance()?;
                Ok(name)
            }
            _ => self.unknown("a name"),
        }
    }

    // What stands between commas up to a closing symbol, which is taken too.
    pub fn list(
        &mut self,
        close: &str,
        mut part: impl FnMut(&mut Self) -> Outcome<()>,
    ) -> Outcome<()> {
        while !self.take(close)? {
            part(self)?;
            if !self.at(close) {
                self.expect(",")?;
            }
        }
        Ok(())
    }

    // ---- paths and types

    // A path. In a type its arguments follow at once, elsewhere behind `::`.
    pub fn path(&mut self, in_type: bool) -> Outcome<Path> {
        let mut names = Vec::new();
        loop {
            match &self.now.token {
                Token::Name(name) if PATH_WORDS.contains(&name.as_str()) => {
                    names.push(name.clone());
                    self.advance()?;
                }
                _ => names.push(self.name()?),
            }
            if in_type && self.at("<") {
                self.arguments()?;
            }
            if !self.take("::")? {
                return Ok(Path { names });
            }
            if !in_type && self.at("<") {
                self.arguments()?;
                if !self.take("::")? {
                    return Ok(Path { names });
                }
            }
        }
    }

    // Type arguments, `<` to `>`.
    pub fn arguments(&mut self) -> Outcome<()> {
        self.expect("<")?;
        while !self.at(">") && !self.at(">>") {
            if self.now.token == Token::Lifetime {
                self.advance()?;
            } else {
                self.type_()?;
            }
            if !self.at(">") && !self.at(">>") {
                self.expect(",")?;
            }
        }
        let mut behind = self.now.start;
        behind.offset += 1;
        self.jump(behind)
    }

    pub fn type_(&mut self) -> Outcome<()> {
        let line = self.line();
        if self.take("&&")? || self.take("&")? {
            if self.now.token == Token::Lifetime {
                self.advance()?;
            }
            self.take_word("mut")?;
            return self.type_();
        }
        if self.take("(")? {
            return self.list(")", |parser| parser.type_());
        }
        if self.take("[")? {
            self.type_()?;
            if self.take(";")? {
                self.mention(line, Mention::Array("an array type"));
                self.expression(true)?;
            }
            return self.expect("]");
        }
        if self.take_word("fn")? {
            self.expect("(")?;
            self.list(")", |parser| parser.type_())?;
            return match self.take("->")? {
                true => self.type_(),
                false => Ok(()),
            };
        }
        if self.take("!")? || self.take_word("_")? {
            return Ok(());
        }
        let path = self.path(true)?;
        self.mention(line, Mention::Type(path));
        Ok(())
    }
}
