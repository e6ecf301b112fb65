// The parser of items: functions with their contracts, structs, enums, constants, modules,
// imports and implementations.

use crate::lex::{self, Token};
use crate::parse::{Outcome, Parser};
use crate::tree::{Constant, Declared, Function, Import, Item, Mention, Path, Trait};

const DERIVES: [&str; 6] = ["Drop", "Debug", "PartialEq", "Eq", "PartialOrd", "Ord"];

// The items of a file.
pub fn parse(file: &str, text: &str) -> Outcome<Vec<Item>> {
    let mut parser = Parser::new(file, text)?;
    parser.file_attributes()?;
    let mut items = Vec::new();
    while parser.now.token != Token::End {
        items.extend(parser.item()?);
    }
    Ok(items)
}

impl Parser<'_> {
    // An item; none where the line is of the other language.
    fn item(&mut self) -> Outcome<Option<Item>> {
        self.attributes()?;
        if self.at_word("ghost") {
            self.advance()?;
            if !self.at_word("use") {
                return self.unknown("\"use\"");
            }
            self.pass(lex::pass_line)?;
            return Ok(None);
        }
        self.visibility()?;
        let line = self.line();
        if self.take_word("use")? {
            let mut imports = Vec::new();
            self.imports(&[], &mut imports)?;
            self.expect(";")?;
            return Ok(Some(Item::Use(imports)));
        }
        if self.take_word("mod")? {
            return self.module(line).map(Some);
        }
        if self.take_word("impl")? {
            return self.implementation(line).map(Some);
        }
        if self.at_word("struct") || self.at_word("enum") || self.at_word("type") {
            return Ok(Some(Item::Declared(self.declared()?)));
        }
        self.function_or_constant().map(Some)
    }

    // Attributes. One that is not known might change what an item means.
    fn attributes(&mut self) -> Outcome<()> {
        while self.take("#")? {
            self.expect("[")?;
            if self.at_word("tactic") {
                self.tactic()?;
            } else if self.take_word("derive")? {
                self.derived()?;
            } else if self.take_word("inline")? {
                if self.take("(")? {
                    if !self.take_word("never")? {
                        return self.unknown("\"never\"");
                    }
                    self.expect(")")?;
                }
            } else if self.take_word("cold")? {
            } else if self.take_word("unsafe")? {
                self.expect("(")?;
                if !self.take_word("no_mangle")? {
                    return self.unknown("an attribute that is known");
                }
                self.expect(")")?;
            } else {
                return self.unknown("an attribute that is known");
            }
            self.expect("]")?;
        }
        Ok(())
    }

    // The attributes of a whole file, at its head.
    fn file_attributes(&mut self) -> Outcome<()> {
        while self.at("#") && self.ahead()? == Token::Symbol("!") {
            self.advance()?;
            self.advance()?;
            self.expect("[")?;
            if !self.at_word("tactic") {
                return self.unknown("an attribute that is known");
            }
            self.tactic()?;
            self.expect("]")?;
        }
        Ok(())
    }

    // `tactic(..)`, which says how a proof is sought and nothing of the code.
    fn tactic(&mut self) -> Outcome<()> {
        self.advance()?;
        if !self.at("(") {
            return self.unknown("\"(\"");
        }
        self.pass(lex::pass_tactic)
    }

    // What is derived, behind `derive`: that a value may be let go, copied, compared or printed.
    // Other derives would make methods that a lookup might call.
    fn derived(&mut self) -> Outcome<()> {
        self.expect("(")?;
        self.list(")", |parser| {
            if parser.take_word("Clone")? {
                parser.expect(",")?;
                return match parser.take_word("Copy")? {
                    true => Ok(()),
                    false => parser.unknown("a derive that is known"),
                };
            }
            for name in DERIVES {
                if parser.take_word(name)? {
                    return Ok(());
                }
            }
            parser.unknown("a derive that is known")
        })
    }

    fn visibility(&mut self) -> Outcome<()> {
        if self.take_word("pub")? && self.at("(") {
            self.advance()?;
            let known = self.take_word("crate")? || self.take_word("super")?;
            if !known && !self.take_word("self")? {
                return self.unknown("\"crate\"");
            }
            self.expect(")")?;
        }
        Ok(())
    }

    fn imports(&mut self, before: &[String], imports: &mut Vec<Import>) -> Outcome<()> {
        let mut names = before.to_vec();
        loop {
            let line = self.line();
            if self.take("{")? {
                return self.list("}", |parser| parser.imports(&names, imports));
            }
            if self.take("*")? {
                imports.push(Import {
                    name: "*".to_string(),
                    path: Path { names },
                    line,
                });
                return Ok(());
            }
            let path_word = ["crate", "self", "super"]
                .iter()
                .find(|word| self.at_word(word));
            match path_word {
                // In a group `self` is the module itself.
                Some(&"self") if !names.is_empty() => self.advance()?,
                Some(word) => {
                    names.push(word.to_string());
                    self.advance()?;
                }
                None => names.push(self.name()?),
            }
            if !self.take("::")? {
                let mut name = names.last().cloned().unwrap_or_default();
                if self.take_word("as")? {
                    name = self.name()?;
                }
                let path = Path { names };
                imports.push(Import { name, path, line });
                return Ok(());
            }
        }
    }

    fn module(&mut self, line: usize) -> Outcome<Item> {
        let name = self.name()?;
        let mut items = None;
        if !self.take(";")? {
            self.expect("{")?;
            let mut inside = Vec::new();
            while !self.take("}")? {
                inside.extend(self.item()?);
            }
            items = Some(inside);
        }
        Ok(Item::Module { name, line, items })
    }

    fn implementation(&mut self, line: usize) -> Outcome<Item> {
        let parameters = self.parameters()?;
        let mut target = self.path(true)?;
        let mut of_trait = match target.single() {
            Some("From") => Some(Trait::From),
            Some("Iterator") => Some(Trait::Iterator),
            _ => None,
        };
        if of_trait.is_some() && self.take_word("for")? {
            self.mentioned();
            target = self.path(true)?;
        } else {
            of_trait = None;
        }
        if !self.mentioned().is_empty() {
            return self.unknown("a type without type arguments before this");
        }
        self.expect("{")?;
        let mut items = Vec::new();
        while !self.take("}")? {
            if self.at_word("ghost") {
                self.pass(lex::pass_line)?;
                continue;
            }
            self.attributes()?;
            self.visibility()?;
            if of_trait.is_some() && self.at_word("type") {
                items.push(Item::Declared(self.declared()?));
            } else {
                items.push(self.function_or_constant()?);
            }
        }
        Ok(Item::Implementation {
            target,
            parameters,
            line,
            items,
            of_trait,
        })
    }

    // The parameters `<'a, T>` of an item: the names of its types.
    fn parameters(&mut self) -> Outcome<Vec<String>> {
        let mut names = Vec::new();
        if self.take("<")? {
            self.list(">", |parser| {
                if parser.now.token != Token::Lifetime {
                    names.push(parser.name()?);
                    return parser.bounds();
                }
                parser.advance()?;
                if parser.take(":")? {
                    while parser.now.token == Token::Lifetime {
                        parser.advance()?;
                        parser.take("+")?;
                    }
                }
                Ok(())
            })?;
        }
        Ok(names)
    }

    // The bounds of a type parameter: whose methods are called through them is not known.
    fn bounds(&mut self) -> Outcome<()> {
        let line = self.line();
        if self.take(":")? {
            self.mention(line, Mention::Refused("a bound of a type parameter"));
            self.path(true)?;
            while self.take("+")? {
                self.path(true)?;
            }
        }
        Ok(())
    }

    fn declared(&mut self) -> Outcome<Declared> {
        let kind = ["struct", "enum", "type"]
            .iter()
            .find(|word| self.at_word(word));
        let kind = kind.copied().unwrap_or_default();
        self.advance()?;
        let mut declared = Declared {
            kind,
            line: self.line(),
            name: self.name()?,
            parameters: self.parameters()?,
            ..Declared::default()
        };
        let behind = self.now.end.offset;
        if kind == "type" {
            self.expect("=")?;
            self.type_()?;
            self.expect(";")?;
        } else if kind == "enum" {
            self.expect("{")?;
            self.list("}", |parser| parser.variant(&mut declared.variants))?;
            declared.room = Some((behind, "Planted([u32; 4]),"));
        } else if self.take("{")? {
            self.list("}", |parser| parser.field())?;
            declared.room = Some((behind, "planted: [u32; 4],"));
        } else {
            declared.is_value = true;
            if self.take("(")? {
                self.list(")", |parser| parser.place())?;
                declared.room = Some((behind, "[u32; 4],"));
            }
            self.expect(";")?;
        }
        declared.mentions = self.mentioned();
        if let ("type", [(_, Mention::Type(path))]) = (kind, &declared.mentions[..]) {
            declared.alias = Some(path.clone());
        }
        Ok(declared)
    }

    fn variant(&mut self, variants: &mut Vec<String>) -> Outcome<()> {
        variants.push(self.name()?);
        if self.take("(")? {
            return self.list(")", |parser| parser.type_());
        }
        if self.take("{")? {
            return self.list("}", |parser| parser.field());
        }
        match self.take("=")? {
            true => self.expression(true),
            false => Ok(()),
        }
    }

    fn field(&mut self) -> Outcome<()> {
        if self.at_word("ghost") && matches!(self.ahead()?, Token::Name(_)) {
            return self.ghost_field();
        }
        self.visibility()?;
        self.name()?;
        self.expect(":")?;
        self.type_()
    }

    // A fact that each value keeps, which is of the other language: `ghost NAME: {..}`.
    fn ghost_field(&mut self) -> Outcome<()> {
        self.advance()?;
        self.name()?;
        self.expect(":")?;
        if !self.at("{") {
            return self.unknown("\"{\"");
        }
        self.pass(lex::pass_clause)
    }

    // A field of a tuple struct.
    fn place(&mut self) -> Outcome<()> {
        self.visibility()?;
        self.type_()
    }

    fn function_or_constant(&mut self) -> Outcome<Item> {
        let is_constant = self.at_word("static") || self.at_word("const");
        if is_constant && !matches!(self.ahead()?, Token::Name(word) if word == "fn") {
            return Ok(Item::Constant(self.constant()?));
        }
        self.take_word("const")?;
        if self.take_word("extern")? {
            if self.now.token != Token::Text {
                return self.unknown("\"C\"");
            }
            self.advance()?;
        }
        if !self.take_word("fn")? {
            return self.unknown("an item");
        }
        Ok(Item::Function(self.function()?))
    }

    fn constant(&mut self) -> Outcome<Constant> {
        self.advance()?;
        self.take_word("mut")?;
        let line = self.line();
        let name = self.name()?;
        self.expect(":")?;
        self.type_()?;
        let value = self.now.end.offset;
        self.expect("=")?;
        self.expression(true)?;
        self.expect(";")?;
        Ok(Constant {
            name,
            line,
            mentions: self.mentioned(),
            value,
        })
    }

    fn function(&mut self) -> Outcome<Function> {
        let mut function = Function {
            line: self.line(),
            name: self.name()?,
            parameters: self.parameters()?,
            ..Function::default()
        };
        self.expect("(")?;
        function.is_method = self.receiver()?;
        self.list(")", |parser| {
            parser.pattern()?;
            parser.expect(":")?;
            parser.type_()
        })?;
        function.signature = self.mentioned();
        if self.take("->")? {
            self.type_()?;
        }
        function.output = self.mentioned();
        while self.at_word("requires") || self.at_word("ensures") {
            self.advance()?;
            if matches!(self.now.token, Token::Name(_)) {
                self.name()?;
            }
            if !self.at("{") {
                return self.unknown("\"{\"");
            }
            self.pass(lex::pass_clause)?;
        }
        function.inside.0 = self.now.end.offset;
        self.expect("{")?;
        while !self.at("}") {
            self.statement()?;
        }
        function.inside.1 = self.now.start.offset;
        self.advance()?;
        function.body = self.mentioned();
        Ok(function)
    }

    // The parameter `self` in any of its forms; says whether there is one.
    fn receiver(&mut self) -> Outcome<bool> {
        let here = self.now.clone();
        if self.take("&")? && self.now.token == Token::Lifetime {
            self.advance()?;
        }
        self.take_word("mut")?;
        if !self.take_word("self")? {
            self.now = here;
            return Ok(false);
        }
        if self.take(":")? {
            self.type_()?;
        }
        if !self.at(")") {
            self.expect(",")?;
        }
        Ok(true)
    }
}
