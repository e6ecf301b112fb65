// The lexer: tokens of Rattle source, taken one at a time from a place in the text. The parser
// decides where a token is taken, since the text of a contract has none.

// A fault of the source: where it stands, and what it is.
#[derive(Clone, Debug)]
pub struct Fault {
    pub file: String,
    pub line: usize,
    pub words: String,
}

// A place in a text: a byte offset and its line, from 1.
#[derive(Clone, Copy, Debug)]
pub struct Place {
    pub offset: usize,
    pub line: usize,
}

pub const START: Place = Place { offset: 0, line: 1 };

#[derive(Clone, Debug, PartialEq)]
pub enum Token {
    // A name or a keyword.
    Name(String),
    Lifetime,
    // A number, a byte or a character.
    Scalar,
    // A string.
    Text,
    // A byte string.
    ByteText,
    Symbol(&'static str),
    End,
}

#[derive(Clone, Debug)]
pub struct Lexed {
    pub token: Token,
    pub start: Place,
    pub end: Place,
}

// The symbols, each before those that it begins with.
const SYMBOLS: [&str; 49] = [
    "<<=", ">>=", "...", "..=", "::", "->", "=>", "..", "==", "!=", "<=", ">=", "&&", "||", "+=",
    "-=", "*=", "/=", "%=", "&=", "|=", "^=", "<<", ">>", "{", "}", "(", ")", "[", "]", ";", ",",
    ".", ":", "=", "<", ">", "+", "-", "*", "/", "%", "&", "|", "^", "!", "?", "@", "#",
];

pub fn starts_name(c: char) -> bool {
    c.is_ascii_alphabetic() || c == '_'
}

pub fn continues_name(c: char) -> bool {
    c.is_ascii_alphanumeric() || c == '_'
}

struct Reader<'a> {
    text: &'a str,
    place: Place,
}

// The line and the words of what is refused.
pub type Refusal = (usize, String);

impl Reader<'_> {
    fn rest(&self) -> &str {
        &self.text[self.place.offset..]
    }

    fn peek(&self) -> Option<char> {
        self.rest().chars().next()
    }

    fn second(&self) -> Option<char> {
        self.rest().chars().nth(1)
    }

    fn advance(&mut self) -> Option<char> {
        let c = self.peek()?;
        self.place.offset += c.len_utf8();
        if c == '\n' {
            self.place.line += 1;
        }
        Some(c)
    }

    fn refuse<T>(&self, words: &str) -> Result<T, Refusal> {
        Err((self.place.line, words.to_string()))
    }

    // Passes blanks and comments; a block comment may hold others.
    fn pass_blanks(&mut self) -> Result<(), Refusal> {
        loop {
            if self.rest().starts_with("//") {
                while self.peek().is_some_and(|c| c != '\n') {
                    self.advance();
                }
            } else if self.rest().starts_with("/*") {
                self.pass_block_comment()?;
            } else if matches!(self.peek(), Some(' ' | '\t' | '\n')) {
                self.advance();
            } else {
                return Ok(());
            }
        }
    }

    fn pass_block_comment(&mut self) -> Result<(), Refusal> {
        let mut depth = 0;
        loop {
            let step = match self.rest() {
                rest if rest.starts_with("/*") => 1,
                rest if rest.starts_with("*/") => -1,
                _ => 0,
            };
            if self.advance().is_none() {
                return self.refuse("a block comment does not end");
            }
            if step != 0 {
                self.advance();
                depth += step;
            }
            if depth == 0 {
                return Ok(());
            }
        }
    }

    // Passes a quoted text from its opening mark on.
    fn pass_quoted(&mut self, mark: char) -> Result<(), Refusal> {
        self.advance();
        loop {
            match self.advance() {
                None => return self.refuse("a quoted text does not end"),
                Some('\\') => {
                    self.advance();
                }
                Some(c) if c == mark => return Ok(()),
                Some('\n') if mark == '\'' => return self.refuse("a character does not end"),
                Some(_) => {}
            }
        }
    }

    // Passes a raw text from its `r` on.
    fn pass_raw(&mut self) -> Result<(), Refusal> {
        self.advance();
        let mut hashes = 0;
        while self.peek() == Some('#') {
            self.advance();
            hashes += 1;
        }
        if self.advance() != Some('"') {
            return self.refuse("a raw name is not known");
        }
        let end = format!("\"{}", "#".repeat(hashes));
        while !self.rest().starts_with(&end) {
            if self.advance().is_none() {
                return self.refuse("a raw text does not end");
            }
        }
        self.place.offset += end.len();
        Ok(())
    }

    // A number; one behind a dot is a tuple's field, so that `a.0.1` has no fraction.
    fn number(&mut self, behind_dot: bool) -> Token {
        while self.peek().is_some_and(continues_name) {
            self.advance();
        }
        let fraction = self.peek() == Some('.')
            && self.second().is_some_and(|c| c.is_ascii_digit())
            && !behind_dot;
        if fraction {
            self.advance();
            while self.peek().is_some_and(continues_name) {
                self.advance();
            }
        }
        Token::Scalar
    }

    fn name(&mut self) -> Token {
        let start = self.place.offset;
        while self.peek().is_some_and(continues_name) {
            self.advance();
        }
        Token::Name(self.text[start..self.place.offset].to_string())
    }

    // A character, or a lifetime: a name with no mark behind it.
    fn quote(&mut self) -> Result<Token, Refusal> {
        let mut ahead = self.rest().chars().skip(1);
        let (first, second) = (ahead.next(), ahead.next());
        if first.is_some_and(starts_name) && second != Some('\'') {
            self.advance();
            self.name();
            return Ok(Token::Lifetime);
        }
        self.pass_quoted('\'').map(|()| Token::Scalar)
    }

    fn token(&mut self, behind_dot: bool) -> Result<Token, Refusal> {
        let rest = self.rest();
        if rest.starts_with("b\"") || rest.starts_with("b'") {
            let text = rest.starts_with("b\"");
            self.advance();
            self.pass_quoted(if text { '"' } else { '\'' })?;
            return Ok(if text { Token::ByteText } else { Token::Scalar });
        }
        if rest.starts_with("br\"") || rest.starts_with("br#") {
            self.advance();
            return self.pass_raw().map(|()| Token::ByteText);
        }
        if rest.starts_with("r\"") || rest.starts_with("r#") {
            return self.pass_raw().map(|()| Token::Text);
        }
        match self.peek() {
            None => Ok(Token::End),
            Some('"') => self.pass_quoted('"').map(|()| Token::Text),
            Some('\'') => self.quote(),
            Some(c) if c.is_ascii_digit() => Ok(self.number(behind_dot)),
            Some(c) if starts_name(c) => {
                let name = self.name();
                match self.peek() {
                    Some('"' | '\'' | '#') => self.refuse("a literal of an unknown kind"),
                    _ => Ok(name),
                }
            }
            Some(c) => match SYMBOLS
                .iter()
                .find(|symbol| self.rest().starts_with(**symbol))
            {
                Some(symbol) => {
                    self.place.offset += symbol.len();
                    Ok(Token::Symbol(symbol))
                }
                None => self.refuse(&format!("a character that is not known: {c:?}")),
            },
        }
    }
}

// The first token from a place on. `behind_dot` says that the token before is a dot.
pub fn next(text: &str, from: Place, behind_dot: bool) -> Result<Lexed, Refusal> {
    let mut reader = Reader { text, place: from };
    reader.pass_blanks()?;
    let start = reader.place;
    let token = reader.token(behind_dot)?;
    let end = reader.place;
    Ok(Lexed { token, start, end })
}

// What might hide a brace or a semicolon in a text of the other language.
const HIDING: [&str; 5] = ["--", "{-", "//", "/*", "\""];

// Passes the text of a contract clause from behind its opening brace to behind the closing one.
// Its braces are counted.
pub fn pass_clause(text: &str, from: Place) -> Result<Place, Refusal> {
    let mut reader = Reader { text, place: from };
    let mut depth = 1;
    while depth > 0 {
        if HIDING.iter().any(|mark| reader.rest().starts_with(mark)) {
            return reader.refuse("a comment or a quoted text in a contract");
        }
        match reader.advance() {
            None => return reader.refuse("a contract does not end"),
            Some('{') => depth += 1,
            Some('}') => depth -= 1,
            Some(_) => {}
        }
    }
    Ok(reader.place)
}

// Passes the words of a `tactic` attribute from behind its opening bracket to behind the closing
// one. They are names, in brackets and between commas.
pub fn pass_tactic(text: &str, from: Place) -> Result<Place, Refusal> {
    let mut reader = Reader { text, place: from };
    let mut depth = 1;
    while depth > 0 {
        match reader.advance() {
            None => return reader.refuse("an attribute does not end"),
            Some('(') => depth += 1,
            Some(')') => depth -= 1,
            Some(' ' | '\n' | ',' | ':' | '-') => {}
            Some(c) if continues_name(c) => {}
            Some(c) => return reader.refuse(&format!("no word of a tactic: {c:?}")),
        }
    }
    Ok(reader.place)
}

// Passes a `ghost use` line to behind its semicolon.
pub fn pass_line(text: &str, from: Place) -> Result<Place, Refusal> {
    let mut reader = Reader { text, place: from };
    loop {
        if HIDING.iter().any(|mark| reader.rest().starts_with(mark)) {
            return reader.refuse("a comment or a quoted text in a ghost use");
        }
        match reader.advance() {
            None => return reader.refuse("a ghost use does not end"),
            Some(';') => return Ok(reader.place),
            Some(_) => {}
        }
    }
}
