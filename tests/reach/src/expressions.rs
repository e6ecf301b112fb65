// The parser of expressions, with Rust's precedence. It tells an index from an array literal, and a
// block from a struct literal, by where they stand.

use crate::lex::Token;
use crate::parse::{Outcome, Parser};
use crate::tree::{Mention, Path};

// What an expression is, as far as it matters for what follows it.
enum Shape {
    // A path whose mention is still to be made: it may be called.
    Path(usize, Path),
    Other,
}

const ASSIGNMENTS: [&str; 11] = [
    "=", "+=", "-=", "*=", "/=", "%=", "&=", "|=", "^=", "<<=", ">>=",
];

fn precedence(token: &Token) -> Option<u8> {
    let Token::Symbol(symbol) = token else {
        return None;
    };
    Some(match *symbol {
        "||" => 1,
        "&&" => 2,
        "==" | "!=" | "<" | ">" | "<=" | ">=" => 3,
        "|" => 4,
        "^" => 5,
        "&" => 6,
        "<<" | ">>" => 7,
        "+" | "-" => 8,
        "*" | "/" | "%" => 9,
        _ => return None,
    })
}

impl Parser<'_> {
    // An expression. In the head of an `if`, `while`, `match` or `for`, where a brace opens the
    // block, no struct literal may stand: `braces` is false there.
    pub fn expression(&mut self, braces: bool) -> Outcome<()> {
        if self.at("..") || self.at("..=") {
            return self.range(braces);
        }
        self.operators(1, braces)?;
        if self.at("..") || self.at("..=") {
            return self.range(braces);
        }
        if ASSIGNMENTS.iter().any(|symbol| self.at(symbol)) {
            self.advance()?;
            return self.expression(braces);
        }
        Ok(())
    }

    // A range from its dots on.
    fn range(&mut self, braces: bool) -> Outcome<()> {
        self.advance()?;
        if self.ends_expression(braces) {
            return Ok(());
        }
        self.operators(1, braces)
    }

    fn ends_expression(&self, braces: bool) -> bool {
        let ends = [")", "]", "}", ",", ";", "=>"];
        ends.iter().any(|symbol| self.at(symbol)) || (!braces && self.at("{"))
    }

    fn operators(&mut self, least: u8, braces: bool) -> Outcome<()> {
        self.prefixed(braces)?;
        loop {
            if self.take_word("as")? {
                self.type_()?;
                continue;
            }
            match precedence(&self.now.token) {
                Some(level) if level >= least => {
                    self.advance()?;
                    self.operators(level + 1, braces)?;
                }
                _ => return Ok(()),
            }
        }
    }

    fn prefixed(&mut self, braces: bool) -> Outcome<()> {
        while self.at("-") || self.at("!") || self.at("*") || self.at("&") || self.at("&&") {
            let borrow = self.at("&") || self.at("&&");
            self.advance()?;
            if borrow {
                self.take_word("mut")?;
            }
        }
        if self.take_word("let")? {
            let bound = self.pattern_apart()?;
            self.expect("=")?;
            self.operators(3, braces)?;
            self.mentions.extend(bound);
            return Ok(());
        }
        let shape = self.primary(braces)?;
        self.postfix(shape)
    }

    // Mentions a path that is not called.
    fn settle(&mut self, shape: Shape) {
        if let Shape::Path(line, path) = shape {
            self.mention(line, Mention::Value(path));
        }
    }

    fn postfix(&mut self, mut shape: Shape) -> Outcome<()> {
        loop {
            let line = self.line();
            if self.take("(")? {
                match shape {
                    Shape::Path(line, path) => self.mention(line, Mention::Call(path)),
                    Shape::Other => {
                        self.mention(line, Mention::Refused("a call of what is no name"))
                    }
                }
                self.list(")", |parser| parser.expression(true))?;
                shape = Shape::Other;
                continue;
            }
            self.settle(shape);
            shape = Shape::Other;
            if self.take("[")? {
                self.expression(true)?;
                self.expect("]")?;
            } else if self.take(".")? {
                self.field_or_method()?;
            } else if self.take("?")? {
                self.mention(line, Mention::Question);
            } else {
                return Ok(());
            }
        }
    }

    fn field_or_method(&mut self) -> Outcome<()> {
        if self.now.token == Token::Scalar {
            return self.advance();
        }
        let line = self.line();
        let name = self.name()?;
        let arguments = self.take("::")?;
        if arguments {
            self.arguments()?;
        }
        if self.take("(")? {
            self.mention(line, Mention::Method(name));
            return self.list(")", |parser| parser.expression(true));
        }
        match arguments {
            true => self.unknown("the arguments of a method"),
            false => Ok(()),
        }
    }

    fn primary(&mut self, braces: bool) -> Outcome<Shape> {
        let line = self.line();
        if self.literal()? {
            return Ok(Shape::Other);
        }
        if self.take("(")? {
            self.list(")", |parser| parser.expression(true))?;
        } else if self.take("[")? {
            self.mention(line, Mention::Array("an array literal"));
            self.elements()?;
        } else if self.begins_block() {
            self.block_like()?;
        } else if self.at("|") || self.at("||") || self.at_word("move") {
            self.scope(Self::closure)?;
        } else if self.take_word("return")? {
            self.operand(braces)?;
        } else if self.take_word("break")? {
            self.label()?;
            self.operand(braces)?;
        } else if self.take_word("continue")? {
            self.label()?;
        } else {
            return self.named(line, braces);
        }
        Ok(Shape::Other)
    }

    fn elements(&mut self) -> Outcome<()> {
        if self.take("]")? {
            return Ok(());
        }
        self.expression(true)?;
        if self.take(";")? {
            self.expression(true)?;
            return self.expect("]");
        }
        if self.take("]")? {
            return Ok(());
        }
        self.expect(",")?;
        self.list("]", |parser| parser.expression(true))
    }

    fn operand(&mut self, braces: bool) -> Outcome<()> {
        match self.ends_expression(braces) {
            true => Ok(()),
            false => self.expression(braces),
        }
    }

    fn label(&mut self) -> Outcome<()> {
        match self.now.token {
            Token::Lifetime => self.advance(),
            _ => Ok(()),
        }
    }

    // A path, a struct literal or a macro.
    fn named(&mut self, line: usize, braces: bool) -> Outcome<Shape> {
        let path = self.path(false)?;
        if self.at("!") {
            self.advance()?;
            self.mention(line, Mention::Refused("a macro"));
            self.pass_group()?;
            return Ok(Shape::Other);
        }
        if !(braces && self.at("{")) {
            return Ok(Shape::Path(line, path));
        }
        self.advance()?;
        self.mention(line, Mention::Braced(path));
        self.list("}", |parser| {
            if parser.take("..")? {
                return parser.expression(true);
            }
            if parser.now.token == Token::Scalar || parser.ahead()? == Token::Symbol(":") {
                parser.advance()?;
                parser.expect(":")?;
                return parser.expression(true);
            }
            let line = parser.line();
            let names = vec![parser.name()?];
            parser.mention(line, Mention::Value(Path { names }));
            Ok(())
        })?;
        Ok(Shape::Other)
    }

    // Passes the tokens of a macro from its opening bracket to the closing one.
    fn pass_group(&mut self) -> Outcome<()> {
        let mut depth = 0;
        loop {
            if ["(", "[", "{"].iter().any(|symbol| self.at(symbol)) {
                depth += 1;
            } else if [")", "]", "}"].iter().any(|symbol| self.at(symbol)) {
                depth -= 1;
            }
            if depth == 0 && !self.at(")") && !self.at("]") && !self.at("}") {
                return self.unknown("the brackets of a macro");
            }
            if self.now.token == Token::End {
                return self.unknown("the end of a macro");
            }
            self.advance()?;
            if depth == 0 {
                return Ok(());
            }
        }
    }

    fn closure(&mut self) -> Outcome<()> {
        self.take_word("move")?;
        if !self.take("||")? {
            self.expect("|")?;
            while !self.take("|")? {
                self.closure_parameter()?;
                if !self.at("|") {
                    self.expect(",")?;
                }
            }
        }
        match self.take("->")? {
            true => {
                self.type_()?;
                self.block()
            }
            false => self.expression(true),
        }
    }
}
