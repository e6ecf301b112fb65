// The parser of blocks and statements, and of what ends with a block; with the scopes of names.

use crate::lex::Token;
use crate::parse::{Outcome, Parser};
use crate::tree::{Mention, Mentions};

// Items, which have no place in a body.
const ITEM_WORDS: [&str; 14] = [
    "fn", "const", "static", "struct", "enum", "union", "type", "use", "mod", "impl", "trait",
    "extern", "pub", "ghost",
];

// Words that begin an expression which ends a statement with its closing brace.
const BLOCK_WORDS: [&str; 5] = ["if", "match", "loop", "while", "for"];

impl Parser<'_> {
    // A pattern whose mentions are to follow those of what it is bound to.
    pub fn pattern_apart(&mut self) -> Outcome<Mentions> {
        let before = self.mentions.len();
        self.pattern()?;
        Ok(self.mentions.split_off(before))
    }

    // A part of the body with names of its own.
    pub fn scope(&mut self, part: impl FnOnce(&mut Self) -> Outcome<()>) -> Outcome<()> {
        self.mention(self.line(), Mention::Enter);
        part(self)?;
        self.mention(self.line(), Mention::Leave);
        Ok(())
    }

    pub fn begins_block(&self) -> bool {
        let word = BLOCK_WORDS.iter().any(|word| self.at_word(word));
        word || self.at("{") || self.now.token == Token::Lifetime
    }

    // A block, or what ends with one.
    pub fn block_like(&mut self) -> Outcome<()> {
        if self.now.token == Token::Lifetime {
            self.advance()?;
            self.expect(":")?;
        }
        if self.take_word("if")? {
            return self.if_();
        }
        if self.take_word("match")? {
            return self.match_();
        }
        if self.take_word("while")? {
            return self.scope(Self::headed_block);
        }
        if self.take_word("for")? {
            return self.scope(Self::for_);
        }
        self.take_word("loop")?;
        self.block()
    }

    // A condition and the block that sees its names.
    fn headed_block(&mut self) -> Outcome<()> {
        self.expression(false)?;
        self.block()
    }

    fn for_(&mut self) -> Outcome<()> {
        self.mention(self.line(), Mention::For);
        let bound = self.pattern_apart()?;
        if !self.take_word("in")? {
            return self.unknown("\"in\"");
        }
        self.expression(false)?;
        self.mentions.extend(bound);
        self.block()
    }

    fn if_(&mut self) -> Outcome<()> {
        self.scope(Self::headed_block)?;
        if !self.take_word("else")? {
            return Ok(());
        }
        match self.take_word("if")? {
            true => self.if_(),
            false => self.block(),
        }
    }

    fn match_(&mut self) -> Outcome<()> {
        self.expression(false)?;
        self.expect("{")?;
        while !self.take("}")? {
            self.scope(Self::arm)?;
        }
        Ok(())
    }

    fn arm(&mut self) -> Outcome<()> {
        self.pattern()?;
        if self.take_word("if")? {
            self.expression(true)?;
        }
        self.expect("=>")?;
        if self.begins_block() {
            self.block_like()?;
            if !self.take(",")? && self.continues_expression() {
                return self.unknown("the next arm");
            }
            return Ok(());
        }
        self.expression(true)?;
        match self.at("}") {
            true => Ok(()),
            false => self.expect(","),
        }
    }

    // Whether what follows a closing brace would go on with its expression.
    fn continues_expression(&self) -> bool {
        [".", "?"].iter().any(|symbol| self.at(symbol)) || self.at_word("as")
    }

    pub fn block(&mut self) -> Outcome<()> {
        self.expect("{")?;
        self.scope(|parser| {
            while !parser.take("}")? {
                parser.statement()?;
            }
            Ok(())
        })
    }

    pub fn statement(&mut self) -> Outcome<()> {
        if self.take(";")? {
            return Ok(());
        }
        if ITEM_WORDS.iter().any(|word| self.at_word(word)) && !self.is_plain_name()? {
            return self.unknown("a statement");
        }
        if self.take_word("let")? {
            return self.let_();
        }
        if self.begins_block() {
            self.block_like()?;
            if self.continues_expression() {
                return self.unknown("the next statement");
            }
            return Ok(());
        }
        self.expression(true)?;
        if !self.at("}") {
            self.expect(";")?;
        }
        Ok(())
    }

    // `union` and `ghost` are names unless an item follows.
    fn is_plain_name(&self) -> Outcome<bool> {
        let plain = self.at_word("union") || self.at_word("ghost");
        Ok(plain && !matches!(self.ahead()?, Token::Name(_)))
    }

    fn let_(&mut self) -> Outcome<()> {
        let bound = self.pattern_apart()?;
        if self.take(":")? {
            self.type_()?;
        }
        if self.take("=")? {
            self.expression(true)?;
            if self.take_word("else")? {
                self.block()?;
            }
        }
        self.mentions.extend(bound);
        self.expect(";")
    }
}
