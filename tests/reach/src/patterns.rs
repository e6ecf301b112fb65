// The parser of patterns and literals.

use crate::lex::Token;
use crate::parse::{is_name, Outcome, Parser};
use crate::tree::Mention;

impl Parser<'_> {
    // A pattern, with its alternatives.
    pub fn pattern(&mut self) -> Outcome<()> {
        self.take("|")?;
        self.one_pattern()?;
        while self.take("|")? {
            self.one_pattern()?;
        }
        Ok(())
    }

    fn one_pattern(&mut self) -> Outcome<()> {
        let line = self.line();
        if self.take("&&")? || self.take("&")? {
            self.take_word("mut")?;
            return self.one_pattern();
        }
        if self.take("(")? {
            return self.list(")", |parser| parser.pattern());
        }
        if self.take("[")? {
            return self.list("]", |parser| parser.pattern());
        }
        if self.take_word("_")? {
            return Ok(());
        }
        if self.at("..") {
            self.advance()?;
            return match self.at(",") || self.at(")") || self.at("]") {
                true => Ok(()),
                false => self.unknown("the end of a pattern's part"),
            };
        }
        if self.at_word("ref") || self.at_word("mut") {
            self.take_word("ref")?;
            self.take_word("mut")?;
            return self.binding();
        }
        if self.literal()? {
            return self.range_end();
        }
        if matches!(&self.now.token, Token::Name(name) if is_name(name)) {
            let ahead = self.ahead()?;
            let longer = ["::", "(", "{", "!", "..", "..=", "..."];
            if !matches!(ahead, Token::Symbol(symbol) if longer.contains(&symbol)) {
                return self.binding();
            }
        }
        let path = self.path(false)?;
        if self.take("(")? {
            self.mention(line, Mention::Call(path));
            return self.list(")", |parser| parser.pattern());
        }
        if self.take("{")? {
            self.mention(line, Mention::Braced(path));
            return self.list("}", |parser| parser.field_pattern());
        }
        self.mention(line, Mention::Value(path));
        self.range_end()
    }

    // A closure's parameter.
    pub fn closure_parameter(&mut self) -> Outcome<()> {
        self.one_pattern()?;
        match self.take(":")? {
            true => self.type_(),
            false => Ok(()),
        }
    }

    fn binding(&mut self) -> Outcome<()> {
        let line = self.line();
        let name = self.name()?;
        self.mention(line, Mention::Binding(name));
        match self.take("@")? {
            true => self.one_pattern(),
            false => Ok(()),
        }
    }

    fn field_pattern(&mut self) -> Outcome<()> {
        if self.at("..") {
            self.advance()?;
            return match self.at("}") {
                true => Ok(()),
                false => self.unknown("the end of the fields"),
            };
        }
        if self.now.token == Token::Scalar || self.ahead()? == Token::Symbol(":") {
            self.advance()?;
            self.expect(":")?;
            return self.pattern();
        }
        self.take_word("ref")?;
        self.take_word("mut")?;
        let line = self.line();
        let name = self.name()?;
        self.mention(line, Mention::Binding(name));
        Ok(())
    }

    fn range_end(&mut self) -> Outcome<()> {
        if !(self.take("..=")? || self.take("..")?) {
            return Ok(());
        }
        if self.literal()? || !matches!(self.now.token, Token::Name(_)) || self.at_word("if") {
            return Ok(());
        }
        let line = self.line();
        let path = self.path(false)?;
        self.mention(line, Mention::Value(path));
        Ok(())
    }

    // A literal, with its sign; says whether there was one.
    pub fn literal(&mut self) -> Outcome<bool> {
        let line = self.line();
        if self.at("-") && self.ahead()? == Token::Scalar {
            self.advance()?;
        }
        match self.now.token {
            Token::Text => self.mention(line, Mention::Text),
            Token::ByteText => self.mention(line, Mention::Array("a byte string")),
            Token::Scalar => {}
            _ if self.at_word("true") || self.at_word("false") => {}
            _ => return Ok(false),
        }
        self.advance()?;
        Ok(true)
    }
}
